"""Whether the plain program answers as the library: opening and GET_STATUS on sets and records as they are, and damaged.

Each is asked by the protocol of tools/harness.c; by it the library answers in both its ways.
"""
import random

from pieces import CONFIGURATION, DEVICE, ENDPOINT, S, STRING, a_set, configuration, endpoint, interface, languages, string
from served import SETUP
from shapes import SHAPES, device
from shared import enumerations

LENGTHS = (200, 300, 1000)
OPENING_NUMBERS = range(7)
EVENT_NUMBERS = (0, *range(7, 14))
EVENTS_OF_A_SET = 5
NO_REQUEST = 0x33
# none, a good one, of odd length, too short, of another length than it says, of another type
SERIAL_BLOCKS = [b"", b"\4\3a\0", b"\5\3a\0b", b"\2\3", b"\6\3a\0", b"\4\2a\0"]
# of two configurations the first alone supports wakeup, and there endpoint 81 is isochronous in one setting and not in the next
TWO_UNLIKE = a_set(
    (DEVICE, 0, 0, device(2, 0)),
    (CONFIGURATION, 0, 0, configuration(interface(0, 0, 1), endpoint(0x81, 1), interface(0, 1, 1), endpoint(0x81), attributes=0xA0)),
    (CONFIGURATION, 1, 0, configuration(interface(0, 0, 1), endpoint(0x81), value=2)),
)
# strings that nothing refers to, a bulk endpoint, and a class descriptor whose type would do as a length
UNREFERENCED = a_set(
    (DEVICE, 0, 0, device(1, 0)),
    (CONFIGURATION, 0, 0, configuration(interface(0, 0, 1), bytes([10, 9, 0x24]) + bytes(7), endpoint(0x81, 2))),
    (STRING, 0, 0, languages(1, 2)),
    (STRING, 1, 1, string("a")),
)
# interface numbers go up past 255 and begin again at the one number that there is to be
PAST_255 = a_set((DEVICE, 0, 0, device(1, 0)), (CONFIGURATION, 0, 0, configuration(*(interface(number % 256) for number in range(257)))))


def descriptors(body):
    """Each descriptor of a body that can be cut."""
    while len(body) >= 2 and 2 <= body[0] <= len(body):
        yield body[: body[0]]
        body = body[body[0] :]


def bodies(made):
    """Each entry's type and body, as far as they can be read."""
    for at in range(4, min(4 + 8 * made[2], len(made) - 7) if len(made) > 2 else 0, 8):
        start, length = (int.from_bytes(made[at + low : at + low + 2], "little") for low in (4, 6))
        yield made[at], made[start : start + length]


def listed(made):
    """The configuration values and the endpoint addresses of a set."""
    configurations = [body for kind, body in bodies(made) if kind == CONFIGURATION and len(body) > 8]
    addresses = [one[2] for body in configurations for one in descriptors(body) if one[1] == ENDPOINT and len(one) > 2]
    return [body[5] for body in configurations] or [1], addresses or [0x81]


class Drawn:
    def __init__(self, seed):
        self.random = random.Random(seed)
        made = [(shape(length)[0], b"") for shape in SHAPES.values() for length in LENGTHS]
        self.small = [(lent, b"") for lent in (S, TWO_UNLIKE, UNREFERENCED)]
        self.blocks = [*made, (PAST_255, b""), *((lent, serial) for _, lent, serial in enumerations())]

    def chance(self, one_in):
        return self.random.randrange(one_in) == 0

    def changed(self, block, most):
        """Up to so many bytes of it are others, most of them by a little."""
        block = bytearray(block)
        for _ in range(self.random.randint(1, most) if block else 0):
            at = self.random.randrange(len(block))
            near = (block[at] + self.random.choice([1, 255])) % 256
            block[at] = self.random.choice([block[at] ^ 1 << self.random.randrange(8), near, self.random.randrange(5), self.random.randrange(256)])
        return bytes(block)

    def lent(self):
        """A set and a serial block."""
        made, serial = self.random.choice(self.small if self.chance(3) else self.blocks)
        if self.chance(2):
            # the contents, the device and the first descriptors stand in front
            front = self.random.choice([20, 80, 200, len(made)])
            made = self.changed(made[:front], 3) + made[front:]
        if self.chance(20):
            made = made[: self.random.randrange(len(made))] if self.chance(2) else made + b"\0"
        if self.chance(20):
            serial = self.random.choice(SERIAL_BLOCKS)
        return made, serial

    def image(self, values, addresses):
        """A record, which fits more often than not if these are the set's values and addresses."""
        state = self.random.choice([0, 1, 2, 2, 2, 2])
        wakeup = int(self.chance(4))
        image = bytearray([state, 5 if state else 0, 255, self.random.choice(values) if state == 2 else 0, wakeup, self.random.randrange(2), self.random.randrange(2), 0])
        image += bytes(24)
        if state < 2 and self.chance(2):
            image[2] = self.random.randrange(130)
        if self.chance(4):
            image[8 + self.random.randrange(3)] = self.random.randrange(3)
        for start in (24, 28):
            if self.chance(3):
                address = self.random.choice(addresses)
                image[start + (address >> 7) * 2 + (address >> 3 & 1)] |= 1 << (address & 7)
        if self.chance(6):
            image = self.changed(image, 1)
        return bytes(image) if not self.chance(50) else bytes(image[: self.random.randrange(32)])

    def setup(self, addresses):
        """GET_STATUS of an endpoint, or of what is none; at times another request that is in no table, or of another length."""
        address = self.random.choice([*addresses, *addresses, 0, 0x80, self.random.randrange(256)])
        setup = bytearray([0x82, 0, 0, 0, address, 0, 2, 0])
        if self.chance(8):
            at = self.random.choice([2, 3, 5, 6, 7])
            setup[at] ^= 1 << self.random.randrange(8)
        if self.chance(20):
            setup[1] = NO_REQUEST
        return bytes(setup) if not self.chance(30) else bytes(setup[: self.random.randrange(8)])


def compare(library, program, calls, seed=1):
    """Gives the first difference in words, or how often each number was given, at opening and at events."""
    drawn, numbers, asked = Drawn(seed), {"opening": {}, "event": {}}, 0
    while asked < calls:
        blocks = drawn.lent()
        values, addresses = listed(blocks[0])
        questions = [("opening", lambda one, image=bytes(32): one.open(image))]
        for _ in range(EVENTS_OF_A_SET):
            image, setup = drawn.image(values, addresses), drawn.setup(addresses)
            questions.append(("event", lambda one, image=image, setup=setup: one.event(SETUP, setup, image)))
        for one in (library, program):
            one.lend(*blocks)
        for kind, ask in questions:
            (number, *said), other = ask(library), ask(program)
            if (number, *said) != other:
                return f"{kind}: the library gives {(number, *said)}, the plain program {other}, on the set {blocks[0].hex()} with {blocks[1].hex() or 'no serial block'}", None
            numbers[kind][number] = numbers[kind].get(number, 0) + 1
        asked += len(questions)
    return None, numbers


def missing(numbers):
    """The numbers that were to be given and were not."""
    return sorted({*OPENING_NUMBERS} - {*numbers["opening"]}), sorted({*EVENT_NUMBERS} - {*numbers["event"]})
