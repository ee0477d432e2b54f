"""How every program begins and ends. 0: fine. 1: refused, or not as expected. 2: it cannot be done, and one line says why."""
import os, sys

FINE, REFUSED, CANNOT = 0, 1, 2


class CannotBeDone(Exception):
    pass


def tell_usage(doc, words, right):
    """--help on standard output; words that are none of this program's end with 2."""
    if {"--help", "-h"} & set(words):
        print(doc.strip())
        sys.exit(FINE)
    if not right:
        print(doc.strip(), file=sys.stderr)
        sys.exit(CANNOT)


def error_words(error):
    """An error of the system by its file; a file that is no UTF-8 by its place."""
    if isinstance(error, OSError) and error.filename is not None:
        return f"{error.filename}: {error.strerror}"
    if isinstance(error, UnicodeDecodeError):
        return f"byte {error.start} is no UTF-8: a text is a file of letters, not of bytes"
    return str(error)


def ended(main):
    """The status that a program ends with; what it said is out."""
    try:
        status = main()
    except SystemExit as end:
        status = end.code
    sys.stdout.flush()
    return status or FINE


def start(main, name):
    try:
        status = ended(main)
    except BrokenPipeError:
        # what was not read is dropped, also what the interpreter would write at its end
        os.dup2(os.open(os.devnull, os.O_WRONLY), sys.stdout.fileno())
        print(f"{name}: what read this has gone away before the end", file=sys.stderr)
        status = CANNOT
    except (CannotBeDone, OSError, UnicodeDecodeError) as error:
        print(f"{name}: {error_words(error)}", file=sys.stderr)
        status = CANNOT
    except KeyboardInterrupt:
        status = 130
    sys.exit(status)


def read_file(path):
    with open(path, "rb") as file:
        return file.read()


def write_file(path, data):
    with open(path, "wb") as file:
        file.write(data)
