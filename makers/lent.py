"""What is lent to the library: one set, the two of a pair, or a SuperSpeed set, and the serial block; and the faults that it tells of them."""
import collections

from fields import entries_of
from rules import ALONE, HIGH, PAIRED, SUPER
from text import DEVICE

ONE, TWO, SUPER_SET = "one", "two", "super"
# The sets of each kind: the name of each, and the limits that it goes by.
KINDS = {
    ONE: [("the set", ALONE)],
    TWO: [("the full-speed set", PAIRED), ("the high-speed set", HIGH)],
    SUPER_SET: [("the set", SUPER)],
}
# The serial block's number among the blocks; the sets' are 0 and 1.
SERIAL = 2

# What the library tells: opening's number, the rule, the byte, and the block that it is a byte of.
Fault = collections.namedtuple("Fault", "number rule place block")


class Lent(collections.namedtuple("Lent", "kind sets serial")):
    def bytes_of(self, block):
        return self.serial if block == SERIAL else self.sets[block]

    def name_of(self, block):
        return "the serial block" if block == SERIAL else KINDS[self.kind][block][0]

    def limits_of(self, block):
        return KINDS[self.kind][block][1]

    def serial_index(self):
        """The iSerialNumber that the serial block is judged by; of a pair the high-speed set's where the full-speed set has none. None without a whole device."""
        bodies = [entry.body for data in self.sets for entry in entries_of(data) if entry.kind == DEVICE]
        return next((body[16] for body in bodies if len(body) == 18 and body[16]), 0 if bodies and len(bodies[0]) == 18 else None)


def one(data, serial=b""):
    """A set that is lent alone."""
    return Lent(ONE, (data,), serial)


def told(number, rule, place, block=0):
    """A fault as it is told of one set: the serial block's number has its own block."""
    return Fault(number, rule, place, SERIAL if number == 6 else block) if number else None
