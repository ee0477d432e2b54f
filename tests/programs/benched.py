"""What the program bench_answers reads and wrote. Each of the scripts that make its records has a section in stdin and in stdout; a record that
is a heading alone, `== SCRIPT`, begins it.

A record is an operation (1 byte), the sizes of a heading (1) and of three blocks (2 each), a buffer's length (2), and these: a serial block, what
is given, and what is to come out or, on a board, what happens.
"""
import os

from shared import TOP
from pieces import word

BENCH = os.path.join(TOP, "crates", "bench_answers")
SCRIPTS = ("lay_out", "take_apart", "dumps", "trims", "runs", "replay")


def record(operation, heading, serial=b"", given=b"", wanted=b"", room=0):
    sizes = word(len(serial)) + word(len(given)) + word(len(wanted)) + word(room)
    return operation + bytes([len(heading)]) + sizes + heading + serial + given + wanted


def records(data):
    """The heading and the three blocks of each record."""
    while data:
        sizes = [data[1], *[int.from_bytes(data[at : at + 2], "little") for at in (2, 4, 6)]]
        ends = [10 + sum(sizes[:n]) for n in range(5)]
        yield [data[at:end] for at, end in zip(ends, ends[1:])]
        data = data[ends[4] :]


def title(script, file):
    line = f"== {script}\n".encode()
    return line if file == "stdout" else record(b"=", line)


def sections(file):
    """Each script's section of stdin or stdout."""
    with open(os.path.join(BENCH, file), "rb") as stored:
        left, found = stored.read(), {}
    for script in reversed(SCRIPTS):
        left, _, found[script] = left.partition(title(script, file))
    return found


def section(script, file):
    return sections(file)[script]


def store(script, file, content):
    """Writes a section anew."""
    held = {**sections(file), script: content}
    with open(os.path.join(BENCH, file), "wb") as stored:
        stored.write(b"".join(title(name, file) + held[name] for name in SCRIPTS))


def listed_sets():
    """Heading, set, serial block, and whether it is accepted, of each full-speed set that is listed."""
    told = section("lay_out", "stdout")
    for heading, serial, whole, _ in records(section("lay_out", "stdin")):
        if not heading.startswith(b"+"):
            yield heading, whole, serial, heading + b"ACCEPTED" in told
