"""A pair of sets: what each says of the other speed, types 6 and 7, made of the other's entries."""
import os, sys

from text import CONFIGURATION, DEVICE, Mistake

TOP = os.path.dirname(os.path.dirname(os.path.abspath(__file__)))
sys.path.insert(1, os.path.join(TOP, "tools"))
from pieces import a_set

QUALIFIER, OTHER_SPEED = 6, 7
LONGEST_SET, MOST_ENTRIES = 16384, 64


def of_kind(entries, kind):
    return [entry for entry in entries if entry[0] == kind]


def mirrors(others):
    """Types 6 and 7 for a set, from the entries of the other."""
    device = next((body for _, _, _, body in of_kind(others, DEVICE)), b"")
    if len(device) < 18:
        raise Mistake("there is no device descriptor of 18 bytes to make type 6 of")
    yield QUALIFIER, 0, 0, bytes([10, QUALIFIER]) + device[2:8] + device[17:18] + b"\0"
    for _, index, _, body in of_kind(others, CONFIGURATION):
        yield OTHER_SPEED, index, 0, body[:1] + bytes([OTHER_SPEED]) + body[2:]


def laid_out(entries):
    entries = sorted(entries, key=lambda entry: (entry[0], entry[2], entry[1]))
    length = 4 + sum(8 + len(body) for *_, body in entries)
    if len(entries) > MOST_ENTRIES or length > LONGEST_SET:
        raise Mistake(f"{len(entries)} entries and {length} bytes: a set has at most {MOST_ENTRIES} and {LONGEST_SET}, types 6 and 7 included")
    return a_set(*entries)
