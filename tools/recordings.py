"""What devices said of themselves, laid out as sets: a recording is the device descriptor and each configuration, end to end."""
from pieces import CONFIGURATION, DEVICE, ENGLISH, STORE, STRING, a_set, languages, string

ZERO = (0, 0, languages(ENGLISH))
BLOCK = string("0001")


def bodies_of(recorded):
    """The configurations of a recording: the device descriptor stands before them, and each has its wTotalLength."""
    at = 18
    while at < len(recorded):
        size = max(int.from_bytes(recorded[at + 2 : at + 4], "little"), 4)
        yield recorded[at : at + size]
        at += size


def references_in(body):
    """iConfiguration, and the iInterface of every setting."""
    yield body[6]
    at = 0
    while at < len(body) and body[at] >= 2:
        if body[at + 1] == 4:
            yield body[at + 8]
        at += body[at]


def recorded_set(recorded, more=()):
    """A recording has no strings: each that it refers to is made up, in one language, and so is the serial block."""
    described, bodies = recorded[:18], list(bodies_of(recorded))
    serial = described[16]
    references = {r for r in [*described[14:16], *[r for body in bodies for r in references_in(body)]] if r not in (0, serial)}
    entries = [(DEVICE, 0, 0, described), *[(CONFIGURATION, i, 0, body) for i, body in enumerate(bodies)]]
    if references or serial:
        entries += [(STRING, *ZERO), *[(STRING, r, ENGLISH, string(f"String {r}")) for r in sorted(references)]]
    return a_set(*entries, *more), BLOCK if serial else b""


def is_super(recorded):
    """A SuperSpeed device: its bMaxPacketSize0 is 9."""
    return recorded[7] == 9


def with_store(recorded):
    """The set of a recording with a BOS made for it: USB 2.0 extension and SuperSpeed capabilities."""
    store = bytes.fromhex("05 0F 16 00 02  07 10 02 06 00 00 00  0A 10 03 00 0E 00 01 0A 00 00")
    return recorded_set(recorded, [(STORE, 0, 0, store)])
