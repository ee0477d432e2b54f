"""Goes on past a fault, on a copy: mends it as it was told and asks again, so that all faults are told at once. What cannot be mended in place is set
aside. Behind a fault of the frame or of the contents nothing is told of that set: nothing stands where it says."""
import os, sys

TOP = os.path.dirname(os.path.dirname(os.path.abspath(__file__)))
sys.path.insert(1, os.path.join(TOP, "tools"))
from faults import is_absent, mirrored, should_be
from fields import BOS, OTHER_SPEED, QUALIFIER, descriptors_in, entries_of, field_at, word
from lent import SERIAL
from pairing import mirrors
from pieces import a_set
from rules import ALONE, HIGH, PAIRED, SUPER
from text import CONFIGURATION, ENDPOINT, STRING

MOST_TOLD = 20
MOST_MENDED = 4 * MOST_TOLD
CLASS_SPECIFIC, ENGLISH = 0x24, 0x0409
IN, NUMBERS = 0x80, range(1, 16)
# A configuration that breaks no rule, for one that is set aside; its value is filled in.
PLAIN = bytes.fromhex("09 02 12 00 01 00 00 80 32  09 04 00 00 00 FF 00 00 00")
PLAIN_BOS, PLAIN_COMPANION = bytes.fromhex("05 0F 05 00 00"), bytes.fromhex("06 30 00 00 00 00")


class Part:
    """An entry of the copy, and the one of the set that it was; none if it was added."""

    def __init__(self, kind, index, language, body, origin=None):
        self.kind, self.index, self.language, self.body, self.origin = kind, index, language, bytearray(body), origin
        self.places = [origin.offset + at for at in range(len(body))] if origin else []

    def key(self):
        return self.kind, self.language, self.index

    def original(self, in_contents, at):
        """The byte of the set that was given; None for one that was added."""
        if in_contents:
            return self.origin.at + at if self.origin else None
        return self.places[at] if at < len(self.places) else None

    def insert(self, at, data):
        """More bytes in a configuration, whose wTotalLength follows."""
        self.body[at:at] = data
        self.places[at:at] = [None] * len(data)
        self.body[2:4] = len(self.body).to_bytes(2, "little")
        return True


class Copy:
    """A set whose contents are right, taken apart; as it was given until something is mended."""

    def __init__(self, data, limits):
        self.data, self.limits, self.is_mended = data, limits, False
        self.parts = [Part(entry.kind, entry.index, entry.language, entry.body, entry) for entry in entries_of(data)]

    def laid_out(self):
        if not self.is_mended:
            return self.data
        self.parts.sort(key=Part.key)
        return a_set(*[(part.kind, part.index, part.language, bytes(part.body)) for part in self.parts])

    def find(self, place):
        """The part that a byte belongs to, whether it stands in the contents, and where in its entry or its body."""
        start = 4 + 8 * len(self.parts)
        if place < start:
            return self.parts[(place - 4) // 8], True, (place - 4) % 8
        for part in self.parts:
            if place < start + len(part.body):
                return part, False, place - start
            start += len(part.body)
        return None

    def of_kind(self, kind):
        return [part for part in self.parts if part.kind == kind]

    def entries(self):
        return [(part.kind, part.index, part.language, bytes(part.body)) for part in self.parts]

    def add(self, kind, index, body):
        self.parts.append(Part(kind, index, 0, body))
        return True

    def free_value(self):
        taken = {part.body[5] for part in self.of_kind(CONFIGURATION) if len(part.body) > 5}
        return min(set(range(1, 256)) - taken)

    def drop(self, part):
        self.parts.remove(part)
        return True

    def set_aside(self, part):
        part.body = bytearray(PLAIN)
        part.body[5] = self.free_value()
        return True

    def list_languages(self, list_part):
        """String 0 with the languages that strings are in; added, if there is none."""
        used = sorted({part.language for part in self.of_kind(STRING) if part.language})[:4] or [ENGLISH]
        body = bytes([2 + 2 * len(used), STRING]) + b"".join(language.to_bytes(2, "little") for language in used)
        if list_part is None:
            self.parts.append(Part(STRING, 0, 0, body))
        else:
            list_part.body = bytearray(body)
        return True

    def listed(self):
        return next(([word(part.body, at) for at in range(2, len(part.body) - 1, 2)] for part in self.of_kind(STRING) if part.index == 0), [])


# ---- how each is mended where several values will do: each gives the new byte or word at the place, or None
def free_address(part, at):
    """An address of the same direction that no endpoint of the configuration has."""
    taken = {part.body[start + 2] for start in descriptors_in(part.body) if part.body[start + 1 : start + 2] == bytes([ENDPOINT]) and start + 2 < len(part.body)}
    return next((number + (part.body[at] & IN) for number in NUMBERS if number + (part.body[at] & IN) not in taken), None)


# By the limits of a speed: bMaxPacketSize0; sizes of bulk endpoints; the most of an interrupt and of an isochronous one; an interrupt endpoint's longest interval.
CONTROL_SIZE = {ALONE: 64, PAIRED: 64, HIGH: 64, SUPER: 9}
BULK_SIZES = {ALONE: (64, 8, 16, 32), PAIRED: (64, 8, 16, 32), HIGH: (512,), SUPER: (1024,)}
MOST_AT_ONCE = {ALONE: (64, 1023), PAIRED: (64, 1023), HIGH: (1024, 1024), SUPER: (1024, 1024)}
LONGEST_INTERVAL = {ALONE: 255, PAIRED: 255, HIGH: 16, SUPER: 16}


def fitting_type(part, at, limits):
    """A transfer type that the endpoint's size and interval fit."""
    size, interval = word(part.body, at + 1), part.body[at + 3]
    return 2 if size in BULK_SIZES[limits] else 3 if size <= MOST_AT_ONCE[limits][0] and 1 <= interval <= LONGEST_INTERVAL[limits] else 1


def fitting_size(rule, limits):
    return {428: BULK_SIZES[limits][0], 429: MOST_AT_ONCE[limits][0], 430: MOST_AT_ONCE[limits][1]}[rule]


def following_alternate(part, at):
    """The alternate setting that may stand behind the interface before."""
    before = [start for start in descriptors_in(part.body) if start + 3 < at and part.body[start + 1] == 4][-1]
    return part.body[before + 3] + 1 if part.body[at - 1] == part.body[before + 2] else 0


def following_setting(part, at):
    """At the number: one higher than before; at the alternate setting: what follows."""
    start = max(start for start in descriptors_in(part.body) if start <= at)
    before = [other for other in descriptors_in(part.body) if other < start and part.body[other + 1] == 4][-1]
    return part.body[before + 2] + 1 if at == start + 2 else following_alternate(part, at)


BYTES = {
    308: lambda part, at: 0, 410: lambda part, at: 250, 411: lambda part, at: CLASS_SPECIFIC,
    408: lambda part, at: (part.body[at] | 0x80) & 0xE0, 409: lambda part, at: part.body[at] & 0xE0, 418: following_setting,
    423: lambda part, at: part.body[at] & 0x8F, 424: free_address, 425: lambda part, at: part.body[at] & 0x3F,
    427: lambda part, at: part.body[at] & 3, 431: lambda part, at: 10, 432: lambda part, at: 1, 433: free_address, 434: free_address,
    439: lambda part, at: CLASS_SPECIFIC, 512: lambda part, at: 0,
}
SIZES = (428, 429, 430)
VALUES = (435, 436)
EXACT_IN_PLACE = {305, 306, 309, 310, 311, 316, 407, 414, 415, 416, 417, 419, 421, 501, 502, 2405, 2410}


def put(part, at, value, size=1):
    if value is None or value >= 256**size:
        return False
    part.body[at : at + size] = value.to_bytes(size, "little")
    return True


def mend_companion(part, at, rule):
    """437: a companion gets the bytes that it lacks; 438: one is put behind the endpoint."""
    length = part.body[at]
    if rule == 438:
        return part.insert(at + length, PLAIN_COMPANION)
    part.body[at] = len(PLAIN_COMPANION)
    return part.insert(at + length, PLAIN_COMPANION[length:])


def mend_by_limits(copy, part, at, rule):
    """What a speed's limits say: bMaxPacketSize0, a transfer type, a size."""
    if rule == 307:
        return put(part, at, CONTROL_SIZE[copy.limits])
    return put(part, at, fitting_type(part, at, copy.limits)) if rule == 426 else put(part, at, fitting_size(rule, copy.limits), 2)


def mend_body(copy, part, at, rule, exact, field):
    """A fault at a byte of a body; False where it cannot be mended."""
    if rule in EXACT_IN_PLACE and exact:
        return put(part, at - field[0], exact[0], field[1])
    if rule in BYTES:
        return put(part, at, BYTES[rule](part, at))
    if rule in (307, 426, *SIZES):
        return mend_by_limits(copy, part, at, rule)
    if rule in VALUES:
        return put(part, at, copy.free_value())
    if rule in (437, 438):
        return mend_companion(part, at, rule)
    if rule in (505, 506, 507, 508):
        return copy.list_languages(part)
    if rule == 510:
        return put(part, at, 0)
    if part.kind == STRING:
        part.body = bytearray([2, STRING])
        return True
    return copy.set_aside(part) if part.kind == CONFIGURATION else False


def is_list(copy, part):
    """Whether a string that is not numbered as string 0 may be it: there is no other, and it lists the languages of all others."""
    others = [other for other in copy.of_kind(STRING) if other is not part]
    listed = {word(part.body, at) for at in range(2, len(part.body) - 1, 2)}
    return all((other.index, other.language) != (0, 0) for other in others) and {other.language for other in others if other.language} <= listed


def mend_language(copy, part):
    """504: string 0 gets its numbers, a string the first listed language that lacks it; what cannot is dropped."""
    if is_list(copy, part):
        part.index = part.language = 0
        return True
    there = {(other.index, other.language) for other in copy.of_kind(STRING)}
    lacking = [language for language in copy.listed() if (part.index, language) not in there]
    if part.index == 0 or not lacking:
        return copy.drop(part)
    part.language = lacking[0]
    return True


INDICES, LANGUAGES = (302, 313, 401, 2402, 2407), (303, 314, 402, 2403, 2408)


def mend_entry(copy, part, rule, exact, right):
    """A fault at an entry of the contents; `right` is the body that the other set of a pair makes it have."""
    if rule in INDICES:
        part.index = exact[0]
    elif rule in LANGUAGES:
        part.language = exact[0]
    elif rule == 504:
        return mend_language(copy, part)
    elif rule in (312, 509, 511, 2401, 2406):
        return copy.drop(part)
    elif rule == 510:
        return copy.list_languages(None)
    elif rule == 315:
        part.body = bytearray(PLAIN_BOS)
    elif rule in (2404, 2409):
        part.body = bytearray(right)
    else:
        return False
    return True


def add_absent(copies, fault):
    """An entry that is not there: a BOS, or what the other set makes of itself."""
    if fault.rule == 312:
        return copies[0].add(BOS, 0, PLAIN_BOS)
    wanted = list(mirrors(copies[1 - fault.block].entries()))
    if fault.rule == 2401:
        return copies[fault.block].add(QUALIFIER, 0, wanted[0][3])
    there = len(copies[fault.block].of_kind(OTHER_SPEED))
    return copies[fault.block].add(OTHER_SPEED, *wanted[1 + there][1::2])


def mended(copies, now, fault):
    """Whether the copies, laid out as `now`, could be mended of this fault."""
    copy = copies[fault.block]
    copy.is_mended = True
    if is_absent(now.sets[fault.block], fault):
        return add_absent(copies, fault)
    part, in_contents, at = copy.find(fault.place)
    exact = should_be(now, fault)
    if in_contents:
        right = mirrored(now, fault.block, fault.place).body if fault.rule in (2404, 2409) else None
        return mend_entry(copy, part, fault.rule, exact, right)
    field = field_at(now.sets[fault.block], fault.place)
    return mend_body(copy, part, at, fault.rule, exact, (fault.place - field.start, field.size))


# ---- going on
def place_of_absent(data, fault):
    """Where an entry that is not there has to stand in the set that was given."""
    return 4 + 8 * sum(fault.rule != 2401 or entry.kind < QUALIFIER for entry in entries_of(data))


def original_of(lent, copies, now, fault):
    """The fault at its byte of the set that was given; None if what it is at was added."""
    if is_absent(now.sets[fault.block], fault):
        return fault._replace(place=place_of_absent(lent.sets[fault.block], fault))
    part, in_contents, at = copies[fault.block].find(fault.place)
    place = part.original(in_contents, at)
    return fault._replace(place=place) if place is not None else None


def is_of_mending(lent, fault):
    """Whether two sets that were given agree where their copies no longer do, since one of them was mended."""
    if fault.number != 24 or is_absent(lent.sets[fault.block], fault):
        return False
    exact, field = should_be(lent, fault), field_at(lent.sets[fault.block], fault.place)
    return exact is not None and exact[0] == int.from_bytes(lent.sets[fault.block][field.start : field.start + field.size], "little")


def last_of(lent, copies, now, fault):
    """The fault that ends it, unless mending made it."""
    if fault.block == SERIAL:
        return [fault] if lent.serial_index() in (None, now.serial_index()) else []
    return [] if copies[fault.block].is_mended else [fault]


def faults_of(lent, ask):
    """The faults in the order in which they are met by whoever mends each as it is told, each at its byte of the set that was given."""
    copies, told = [Copy(data, lent.limits_of(block)) for block, data in enumerate(lent.sets)], []
    for _ in range(MOST_MENDED):
        now = lent._replace(sets=tuple(copy.laid_out() for copy in copies))
        fault = ask(now)
        if fault is None or len(told) == MOST_TOLD:
            break
        if fault.number in (1, 2, 6):
            return told + last_of(lent, copies, now, fault)
        original = original_of(lent, copies, now, fault)
        if original in told:
            break
        if original and not is_of_mending(lent, original) and (original.block, original.place) not in {(other.block, other.place) for other in told}:
            told.append(original)
        if not mended(copies, now, fault):
            break
    return told
