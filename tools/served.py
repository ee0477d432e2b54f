"""The library in its harness, or another program that speaks the harness's protocol, asked one call after the other."""
import subprocess

from pieces import word

# The events by their numbers in include/heideklonk.h, and the operation of each in the protocol.
SETUP, STATUS_END, BUS_RESET, HALT, PACKET_PASSED, POWER, SUSPEND, RESUME, WAKE = range(9)
OPERATIONS = b"serhpPzya"
# The blocks of a pair as hk_two_explain numbers them, by the protocol's own numbers.
BLOCKS_TOLD = {0: 0, 3: 1, 1: 2}
# A bus reset that names its speed.
BUS_RESET_TO = b"R"


def block(data):
    return len(data).to_bytes(4, "little") + data


# What a response says of a call that went wrong, by its first byte.
ERRORS = [
    "",
    "a byte outside the blocks, or in one that is only read, was changed",
    "the part lies in no block that was lent, or was not written",
    "memory outside the blocks was touched",
    "the call stopped the program",
    "the command was not understood",
    "the second way gave or left something else",
]


class CallWentWrong(Exception):
    pass


class Served:
    """A program that speaks the protocol of tools/harness.c, which tests/reference/src/protocol.rs describes."""

    def __init__(self, command):
        self.command = command

    def __enter__(self):
        self.process = subprocess.Popen(self.command, stdin=subprocess.PIPE, stdout=subprocess.PIPE)
        return self

    def __exit__(self, *_):
        self.process.stdin.close()
        self.process.wait()

    def say(self, operation, rest):
        self.process.stdin.write(operation + b"\0" + rest)

    def lend(self, data, serial):
        self.say(b"S", block(data))
        self.say(b"U", block(serial))

    def lend_two(self, full, high, serial):
        """For the calls whose names begin with two."""
        self.lend(full, serial)
        self.say(b"H", block(high))

    def ask(self, operation, rest):
        """The number, the bytes, the part as (block, offset, length), and the image."""
        self.say(operation, rest)
        self.process.stdin.flush()
        head = self.process.stdout.read(18)
        if len(head) < 18 or head[0] != 0:
            raise CallWentWrong(ERRORS[head[0]] if len(head) == 18 else "the program ended")
        numbers = [int.from_bytes(head[at : at + 4], "little") for at in (6, 10, 14)]
        return head[1], head[3 : 3 + head[2]], (head[5], *numbers[:2]), self.process.stdout.read(numbers[2])

    def open(self, image):
        return self.ask(b"o", block(image))

    def event(self, kind, carried, image):
        operation = BUS_RESET_TO if kind == BUS_RESET and carried else OPERATIONS[kind : kind + 1]
        return self.ask(operation, block(image) + block(carried) if kind == SETUP else carried + block(image))

    def two_open(self, image):
        return self.ask(b"O", block(image))

    def two_event(self, kind, carried, image):
        """An event where two sets are lent; the part's block is 0 for the full-speed set and 3 for the other."""
        value, setup = (0, carried) if kind == SETUP else (carried[0] if carried else 0, b"")
        return self.ask(b"V", bytes([kind, value]) + block(image) + block(setup))

    def port_event(self, port, kind, carried, row, two=False):
        """An event at a port of a row of records, of the one set that is lent or of two; the image is the row."""
        value, setup = (0, carried) if kind == SETUP else (carried[0] if carried else 0, b"")
        return self.ask(b"Q" if two else b"q", port.to_bytes(8, "little") + bytes([kind, value]) + block(row) + block(setup))

    def pipe_event(self, kind, value, blocks, setup, two=False):
        """An event of the pipe, of one set or of two, with image, pipe record and reply as blocks: the number, the bytes, the part, the order, the room,
        and both records."""
        image, pipe, _ = blocks
        rest = bytes([kind]) + word(value) + b"".join(map(block, [*blocks, setup]))
        number, given, part, left = self.ask(b"C" if two else b"c", rest)
        room, records = int.from_bytes(left[1:3], "little"), left[3:]
        return number, given, part, left[0], room, records[len(pipe) :], records[: len(pipe)]

    def write(self, pieces, size=16384):
        """hk_write: the number, and the set that it wrote with the serial block lent."""
        number, _, part, buffer = self.ask(b"w", block(pieces) + block(bytes(size)))
        return number, buffer[: part[2]]

    def super_open(self, image):
        return self.ask(b"f", block(image))

    def super_write(self, pieces, size=16384):
        """hk_super_write, in the same way."""
        number, _, part, buffer = self.ask(b"F", block(pieces) + block(bytes(size)))
        return number, buffer[: part[2]]

    def explain(self):
        """hk_explain: the number, the rule and the place."""
        number, rule, part, _ = self.ask(b"X", b"")
        return number, int.from_bytes(rule, "little"), part[1]

    def super_explain(self):
        """hk_super_explain, in the same way."""
        number, rule, part, _ = self.ask(b"Y", b"")
        return number, int.from_bytes(rule, "little"), part[1]

    def two_explain(self):
        """hk_two_explain: the number, the rule, the block (0 the full-speed set, 1 the high-speed set, 2 the serial block) and the place."""
        number, rule, part, _ = self.ask(b"Z", b"")
        return number, int.from_bytes(rule, "little"), BLOCKS_TOLD[part[0]], part[1]

    def packets(self, length, asked, size):
        """The lengths of the packets."""
        for k in range(65536):
            number, _, part, _ = self.ask(b"k", length.to_bytes(4, "little") + word(asked) + size.to_bytes(4, "little") + k.to_bytes(4, "little"))
            if number != 0:
                return
            yield part[2]
