"""A dump of a device, its device descriptor and its configurations end to end, as a set: what the set is told, by bytes of the dump."""
import os, sys

from fields import entries_of
from lent import SERIAL
from text import CONFIGURATION, DEVICE, Mistake

TOP = os.path.dirname(os.path.dirname(os.path.abspath(__file__)))
sys.path.insert(1, os.path.join(TOP, "tools"))
from recordings import recorded_set


def is_dump(data):
    return data[:2] == b"\x12\x01" and len(data) >= 27 and data[19] == CONFIGURATION


def dumped_set(dump):
    """The set of a dump and a serial block; the strings that it refers to are made up."""
    if not is_dump(dump):
        raise Mistake("a recording starts with a device descriptor and a configuration")
    try:
        return recorded_set(dump)
    except IndexError:
        raise Mistake("this recording breaks off") from None


def place_in_dump(data, fault):
    """The byte of the dump that a fault of its set is at; None if it is at none."""
    at = 0
    for entry in entries_of(data):
        if entry.kind in (DEVICE, CONFIGURATION):
            if fault.block != SERIAL and entry.offset <= fault.place < entry.offset + entry.length:
                return fault.place - entry.offset + at
            at += entry.length
    return None
