"""What else a refused set may be: a set of a pair, a high-speed device's, a SuperSpeed one. The library is asked, in its harness, where that is built."""
import os, sys

from fields import entries_of as placed_entries
from pairing import OTHER_SPEED, QUALIFIER, laid_out, mirrors, of_kind
from text import CONFIGURATION, DEVICE, STRING, Mistake, entries_of

TOP = os.path.dirname(os.path.dirname(os.path.abspath(__file__)))
sys.path.insert(1, os.path.join(TOP, "tools"))
from pieces import S_CONFIGURATION, S_DEVICE
from served import CallWentWrong, Served

LIBRARY = [os.path.join(TOP, "tools", "emulate"), os.path.join(TOP, "target", "bench", "harness")]
STORE, SUPER_SPEED = 15, 9
IMAGE = bytes(32)


def opened(number):
    return "it is accepted" if number == 0 else f"it is refused with {number}"


def other_of_pair(entries):
    """The other set of a pair, as far as types 6 and 7 of this one say it; strings and numbers are this one's."""
    (*_, device), (*_, qualifier) = of_kind(entries, DEVICE)[0], of_kind(entries, QUALIFIER)[0]
    if len(device) != 18 or len(qualifier) != 10:
        raise Mistake("types 1 and 6 have not their lengths")
    other = [(DEVICE, 0, 0, bytes([18, DEVICE]) + qualifier[2:8] + device[8:17] + qualifier[8:9]), *of_kind(entries, STRING)]
    other += [(CONFIGURATION, index, 0, body[:1] + bytes([CONFIGURATION]) + body[2:]) for _, index, _, body in of_kind(entries, OTHER_SPEED)]
    return laid_out(other + list(mirrors(entries)))


def pair_number(library, full, high, serial):
    library.lend_two(full, high, serial)
    return library.two_open(IMAGE)[0]


def of_pair(data, serial, library):
    """A set with types 6 and 7: which of the two it is."""
    other = other_of_pair(list(entries_of(data)))
    as_full, as_high = pair_number(library, data, other, serial), pair_number(library, other, data, serial)
    if as_full == as_high == 0:
        return "this looks like a set of a pair: opened as one, beside a set made of its types 6 and 7, it is accepted at either speed"
    if 0 in (as_full, as_high):
        return f"this looks like the {'full' if as_full == 0 else 'high'}-speed set of a pair: opened as one, beside a set made of its types 6 and 7, it is accepted"
    return f"this looks like a set of a pair (it has types 6 and 7): as the full-speed set {opened(as_full)}, as the high-speed one {opened(as_high)}"


def high_speed(data, serial, library):
    """A set without types 6 and 7 that keeps high speed's limits: beside a small full-speed set it opens."""
    entries, serial_number = list(entries_of(data)), of_kind(list(entries_of(data)), DEVICE)[0][3][14:17]
    small = [(DEVICE, 0, 0, S_DEVICE[:14] + b"\0\0" + serial_number[2:] + S_DEVICE[17:]), (CONFIGURATION, 0, 0, S_CONFIGURATION)]
    small += [entry for entry in of_kind(entries, STRING) if entry[1] == 0] if serial_number[2] else []
    number = pair_number(library, laid_out(small + list(mirrors(entries))), laid_out(entries + list(mirrors(small))), serial)
    return "this looks like the set of a high-speed device: with types 6 and 7 it opens as the high-speed set of a pair" if number == 0 else ""


def super_speed(data, serial, library):
    library.lend(data, serial)
    return f"this looks like a SuperSpeed set: opened as one, {opened(library.super_open(IMAGE)[0])}"


def looks_like(data, serial, library):
    """In words; nothing if it looks like no other kind."""
    kinds = {entry.kind for entry in placed_entries(data)}
    device = next((entry.body for entry in placed_entries(data) if entry.kind == DEVICE), b"")
    try:
        if STORE in kinds or device[7:8] == bytes([SUPER_SPEED]):
            return super_speed(data, serial, library)
        if {QUALIFIER, OTHER_SPEED} & kinds:
            return of_pair(data, serial, library)
        return high_speed(data, serial, library)
    except (Mistake, IndexError, OverflowError, CallWentWrong):
        return ""


def other_kind(data, serial):
    """The same, where the library is built in its harness."""
    if not os.path.exists(LIBRARY[-1]):
        return ""
    with Served(LIBRARY) as library:
        return looks_like(data, serial, library)
