"""An outside explainer: which rule a set, a SuperSpeed set or a pair breaks first, and at which byte, from docs/MAKERS.md alone. The order of the rules and the
byte of each are read from the page as it stands; what a rule asks is its row, in Python. It shares nothing with the library nor with broken.py."""
import re


def word(data, at):
    return data[at] + 256 * data[at + 1]


# ---- what the page says
def read_order(page, title):
    """A block of the order: rules, and (thing, [what is asked of each])."""
    lines = re.search(rf"^```order {title}\n([^`]*)^```$", page, re.MULTILINE)[1].splitlines()
    levels = [[]]
    for line in lines:
        depth = (len(line) - len(line.lstrip())) // 4
        del levels[depth + 1 :]
        if line.strip()[0].isdigit():
            levels[-1] += map(int, line.split())
        else:
            levels[-1].append((line.strip(), inner := []))
            levels.append(inner)
    return levels[0]


def read_places(page):
    """Each rule's bytes, as the rows of its tables have them: what they are counted from, and how many bytes on."""
    places = {}
    for numbers, cell in re.findall(r"^\| (\d{3,4}(?:, \d{3})*) \| ([^|]*) \|", page, re.MULTILINE):
        for number in map(int, numbers.split(", ")):
            found = [(base, int(on)) for base, on in re.findall(r"`([a-z ]+) \+ (\d+)`", cell)]
            places[number] = places.get(number, []) + [place for place in found if place not in places.get(number, [])]
    return places


def differing(one, other):
    """The first byte in which two bodies differ."""
    at = 0
    while at < min(len(one), len(other)) and one[at] == other[at]:
        at += 1
    return at


class Told(Exception):
    """The first rule that is broken."""


class Reading:
    """A set as it is gone through: the things that the rules are about, and where they stand."""

    def __init__(self, data, serial, kind):
        self.kind_of_set = kind
        self.data, self.serial, self.at = data, serial, {"set": 0, "serial": 0}
        self.entries, self.strings, self.values, self.reference, self.languages = [], [], [], None, []

    # ---- the things, each as the page names it
    def each_entry(self):
        self.ended, self.before = 4 + 8 * self.data[2], None
        for at in range(4, 4 + 8 * self.data[2], 8):
            self.at["entry"] = self.at["last entry"] = at
            self.kind, self.index, self.language = self.data[at], self.data[at + 1], word(self.data, at + 2)
            self.offset, self.length = word(self.data, at + 4), word(self.data, at + 6)
            yield
            self.before, self.ended = (self.kind, self.language, self.index), self.offset + self.length
            self.entries.append((at, self.kind, self.index, self.language, self.offset, self.length))

    def enter(self, entry):
        """The rules that follow are about this entry and its body."""
        at, self.kind, self.index, self.language, self.offset, self.length = entry
        self.at["entry"], self.at["body"] = at, self.offset
        self.body = self.data[self.offset : self.offset + self.length]

    def of_kind(self, kind):
        return [entry for entry in self.entries if entry[1] == kind]

    def each_configuration(self):
        for self.before_it, entry in enumerate(self.of_kind(2)):
            self.enter(entry)
            self.setting, self.seen = None, {}
            yield
            self.values.append(self.body[5])

    def its_first_descriptor(self):
        self.descriptor = self.body
        self.at["descriptor"] = self.offset
        yield
        self.next = self.body[0]

    def each_descriptor_behind_it(self):
        while self.next < len(self.body):
            self.descriptor = self.body[self.next :]
            self.at["descriptor"] = self.offset + self.next
            yield
            self.next += self.descriptor[0]

    def an_interface(self):
        if self.descriptor[1] == 4:
            yield
            self.setting, self.at["interface"] = (self.descriptor[2], self.descriptor[3]), self.at["descriptor"]
            self.says, self.has = self.descriptor[4], []

    def an_endpoint(self):
        if self.descriptor[1] == 5:
            yield
            self.has.append(self.descriptor[2])
            self.seen[self.descriptor[2]] = self.setting[0]

    def a_SuperSpeed_set(self):
        if self.kind_of_set == SUPER:
            self.stores, self.behind = self.of_kind(15), False
            yield

    def each_descriptor(self):
        """Of the body, from its first; the endpoint before it, or none."""
        self.next, self.lacks, self.behind = 0, None, False
        while self.next < len(self.body):
            self.descriptor = self.body[self.next :]
            self.at["descriptor"] = self.offset + self.next
            yield
            self.lacks = self.at["descriptor"] if self.descriptor[1] == 5 else None
            self.at["endpoint"] = self.lacks
            self.next += self.descriptor[0]
        self.behind = True

    def each_type_7_entry(self):
        self.left, self.in_entry = self.other.of_kind(2), True
        for entry in self.of_kind(7):
            self.enter(entry)
            self.held_to = self.left.pop(0) if self.left else None
            self.over = self.held_to is None
            self.wanted = self.other.body_of(self.held_to, 7) if self.held_to else b""
            self.at["difference"] = self.offset + differing(self.body, self.wanted)
            yield
        self.in_entry = False

    def body_of(self, entry, type_byte):
        """An entry's body with another type byte."""
        body = self.data[entry[4] : entry[4] + entry[5]]
        return body[:1] + bytes([type_byte]) + body[2:]

    def stands_beside(self, other):
        """24 is asked of this set from now on."""
        self.other, device = other, other.body_of(other.of_kind(1)[0], 1)
        self.wanted = bytes([10, 6, *device[2:8], device[17], 0])
        self.at["end of contents"] = 4 + 8 * len(self.entries)
        self.at["end of strings"] = 4 + 8 * sum(entry[1] <= 3 for entry in self.entries)
        self.in_entry = False

    def each_string(self):
        self.enter(self.of_kind(1)[0])
        self.serial_number = self.body[16]
        for entry in self.of_kind(3):
            self.enter(entry)
            yield

    def string_0(self):
        if self.index == 0:
            self.languages = [word(self.body, at) for at in range(2, len(self.body), 2)]
            yield

    def each_language(self):
        self.last_listed = 0
        for number, self.listed in enumerate(self.languages):
            self.at["language"] = self.offset + 2 + 2 * number
            yield
            self.last_listed = self.listed

    def each_reference(self):
        self.enter(self.of_kind(1)[0])
        self.serial_number = self.body[16]
        for place in self.places_of_references():
            self.at["reference"], self.reference = place, self.data[place]
            yield

    def places_of_references(self):
        yield from (self.offset + field for field in (14, 15, 16))
        for entry in self.of_kind(2):
            self.enter(entry)
            yield self.offset + 6
            at = 0
            while at < len(self.body):
                if self.body[at + 1] == 4:
                    yield self.offset + at + 8
                at += self.body[at]

    # ---- for the rules
    def has_string_0(self):
        return any((index, language) == (0, 0) for _, _, index, language, *_ in self.of_kind(3))

    def has_string(self, number):
        return all(any((index, language) == (number, listed) for _, _, index, language, *_ in self.of_kind(3)) for listed in self.languages)

    def follows(self):
        number, alternate = self.setting
        return tuple(self.descriptor[2:4]) in ((number, alternate + 1), (number + 1, 0))

    def transfer(self):
        return self.descriptor[3] % 4

    def size(self):
        return word(self.descriptor, 4)


# The kinds of set, and what each may have: types of entry, bMaxPacketSize0, sizes by transfer type, an interrupt endpoint's longest bInterval.
ALONE, FULL, HIGH, SUPER = "alone", "full", "high", "super"
TYPES = {ALONE: (1, 2, 3), FULL: (1, 2, 3, 6, 7), HIGH: (1, 2, 3, 6, 7), SUPER: (1, 2, 3, 15)}
CONTROL_SIZES = {ALONE: (8, 16, 32, 64), FULL: (8, 16, 32, 64), HIGH: (64,), SUPER: (9,)}
BULK_SIZES = {ALONE: (8, 16, 32, 64), FULL: (8, 16, 32, 64), HIGH: (512,), SUPER: (1024,)}
INTERRUPT_INTERVALS = {ALONE: range(1, 256), FULL: range(1, 256), HIGH: range(1, 17), SUPER: range(1, 17)}


def in_microframe(size):
    return size % 2048 <= 1024 and size // 2048 <= 2


SIZES = {
    ALONE: {3: lambda size: size <= 64, 1: lambda size: size <= 1023}, HIGH: {3: in_microframe, 1: in_microframe},
    SUPER: {3: lambda size: 1 <= size <= 1024, 1: lambda size: size <= 1024},
}
SIZES[FULL] = SIZES[ALONE]

# Whether each rule holds, in the words of its row. Where one has several places, the number of the place that is meant, behind whether it holds.
ISOCHRONOUS, BULK, INTERRUPT = 1, 2, 3
HOLDS = {
    101: lambda r: len(r.data) >= 4,
    102: lambda r: len(r.data) <= 16384,
    103: lambda r: word(r.data, 0) == len(r.data),
    104: lambda r: r.data[2] >= 1,
    105: lambda r: r.data[2] <= 64,
    106: lambda r: r.data[3] == 0,
    107: lambda r: 4 + 8 * r.data[2] <= len(r.data),
    201: lambda r: r.kind in TYPES[r.kind_of_set],
    202: lambda r: r.before is None or r.before < (r.kind, r.language, r.index),
    203: lambda r: r.length >= 2,
    204: lambda r: r.offset == r.ended,
    205: lambda r: r.ended == len(r.data),
    301: lambda r: (len(r.of_kind(1)) == 1, int(len(r.of_kind(1)) > 1)),
    302: lambda r: r.index == 0,
    303: lambda r: r.language == 0,
    304: lambda r: r.length == 18,
    305: lambda r: r.body[0] == 18,
    306: lambda r: r.body[1] == 1,
    307: lambda r: r.body[7] in CONTROL_SIZES[r.kind_of_set],
    308: lambda r: r.body[4] or not r.body[5],
    309: lambda r: r.body[17] >= 1,
    310: lambda r: r.body[17] <= 8,
    311: lambda r: r.body[17] == len(r.of_kind(2)),
    312: lambda r: (len(r.stores) == 1, int(len(r.stores) > 1)),
    313: lambda r: r.index == 0,
    314: lambda r: r.language == 0,
    315: lambda r: r.length >= 5,
    316: lambda r: word(r.body, 2) == r.length,
    401: lambda r: r.index == r.before_it,
    402: lambda r: r.language == 0,
    403: lambda r: r.descriptor[0] >= 2,
    404: lambda r: r.descriptor[0] <= len(r.descriptor),
    405: lambda r: r.body[1] == 2,
    406: lambda r: r.body[0] >= 9,
    407: lambda r: word(r.body, 2) == len(r.body),
    408: lambda r: r.body[7] >= 128,
    409: lambda r: r.body[7] % 32 == 0,
    410: lambda r: r.body[8] <= 250,
    411: lambda r: r.descriptor[1] not in (1, 2, 3, 6, 7),
    412: lambda r: r.descriptor[0] >= 9,
    413: lambda r: r.descriptor[0] >= 7,
    414: lambda r: r.body[4] >= 1,
    415: lambda r: r.body[4] <= 16,
    416: lambda r: r.setting is not None or r.descriptor[2] == 0,
    417: lambda r: r.setting is not None or r.descriptor[3] == 0,
    418: lambda r: (not r.setting or r.follows(), int(bool(r.setting) and r.descriptor[2] - r.setting[0] in (0, 1))),
    419: lambda r: r.setting and r.setting[0] == r.body[4] - 1,
    420: lambda r: r.descriptor[3] <= 15,
    421: lambda r: not r.setting or (len(r.has) < r.says if r.next < len(r.body) and r.descriptor[1] == 5 else len(r.has) == r.says),
    422: lambda r: r.setting is not None,
    423: lambda r: r.descriptor[2] // 16 in (0, 8),
    424: lambda r: r.descriptor[2] % 16,
    425: lambda r: r.descriptor[3] < 64,
    426: lambda r: r.transfer(),
    427: lambda r: r.transfer() == ISOCHRONOUS or r.descriptor[3] < 4,
    428: lambda r: r.transfer() != BULK or r.size() in BULK_SIZES[r.kind_of_set],
    429: lambda r: r.transfer() != INTERRUPT or SIZES[r.kind_of_set][3](r.size()),
    430: lambda r: r.transfer() != ISOCHRONOUS or SIZES[r.kind_of_set][1](r.size()),
    431: lambda r: r.transfer() != INTERRUPT or r.descriptor[6] in INTERRUPT_INTERVALS[r.kind_of_set],
    432: lambda r: r.transfer() != ISOCHRONOUS or 1 <= r.descriptor[6] <= 16,
    433: lambda r: r.descriptor[2] not in r.has,
    434: lambda r: r.seen.get(r.descriptor[2], r.setting[0]) == r.setting[0],
    435: lambda r: r.body[5],
    436: lambda r: r.body[5] not in r.values,
    437: lambda r: r.descriptor[1] != 48 or r.descriptor[0] >= 6,
    438: lambda r: r.lacks is None or (not r.behind and r.descriptor[1] == 48),
    439: lambda r: r.descriptor[1] != 48 or r.lacks is not None,
    501: lambda r: r.body[0] == r.length,
    502: lambda r: r.body[1] == 3,
    503: lambda r: r.length % 2 == 0,
    504: lambda r: (r.language == 0) == (r.index == 0),
    505: lambda r: len(r.languages) >= 1,
    506: lambda r: len(r.languages) <= 4,
    507: lambda r: r.listed,
    508: lambda r: r.last_listed < r.listed,
    509: lambda r: r.index == 0 or r.language in r.languages,
    510: lambda r: (r.has_string_0() or (not r.of_kind(3) if r.reference is None else not r.reference), int(r.reference is not None)),
    511: lambda r: not r.serial_number or r.index != r.serial_number,
    512: lambda r: r.reference in (0, r.serial_number) or r.has_string(r.reference),
    601: lambda r: r.serial_number or not r.serial,
    602: lambda r: not r.serial_number or len(r.serial) % 2 == 0,
    603: lambda r: not r.serial_number or len(r.serial) >= 4,
    604: lambda r: not r.serial_number or len(r.serial) <= 254,
    605: lambda r: not r.serial_number or r.serial[0] == len(r.serial),
    606: lambda r: not r.serial_number or r.serial[1] == 3,
    2401: lambda r: (len(r.of_kind(6)) == 1, int(len(r.of_kind(6)) > 1)),
    2402: lambda r: r.index == 0,
    2403: lambda r: r.language == 0,
    2404: lambda r: r.length == 10,
    2405: lambda r: r.body == r.wanted,
    2406: lambda r: (not r.over if r.in_entry else not r.left, 0 if r.in_entry else 1),
    2407: lambda r: r.index == r.held_to[2],
    2408: lambda r: r.language == 0,
    2409: lambda r: len(r.body) == len(r.wanted),
    2410: lambda r: r.body == r.wanted,
}


class Explainer:
    def __init__(self, page):
        self.order, self.beside, self.places = read_order(page, "rules"), read_order(page, "pair"), read_places(page)

    # What has to be found before a rule is asked, and what its rule leads to: the one entry that the next rules are about.
    def find(self, reading, rule):
        if rule == 301:
            reading.at["first string"] = next((entry[0] for entry in reading.of_kind(3)), 0)
        if rule == 312:
            reading.at["end of contents"] = 4 + 8 * len(reading.entries)
        for number, kind in ((312, 15), (2401, 6)):
            if rule == number and len(reading.of_kind(kind)) > 1:
                reading.at["entry"] = reading.of_kind(kind)[1][0]

    def lead(self, reading, rule):
        kind = {301: 1, 312: 15, 2401: 6}.get(rule)
        if kind:
            reading.enter(reading.of_kind(kind)[0])
        if rule == 2401:
            reading.at["difference"] = reading.offset + differing(reading.body, reading.wanted)

    def ask(self, reading, rule):
        self.find(reading, rule)
        holds, which = answer if isinstance(answer := HOLDS[rule](reading), tuple) else (answer, 0)
        if not holds:
            base, on = self.places[rule][which]
            raise Told(rule, reading.at[base] + on)
        self.lead(reading, rule)

    def go(self, reading, order):
        for item in order:
            if isinstance(item, int):
                self.ask(reading, item)
            else:
                for _ in getattr(reading, item[0].replace(" ", "_"))():
                    self.go(reading, item[1])

    def explain(self, kinds, sets, serial):
        """Opening's number, the rule, the block (a set's number, or 2 for the serial block) and the byte; all 0 if no rule is broken."""
        readings, block = [Reading(data, serial, kind) for kind, data in zip(kinds, sets)], 0
        try:
            for block, reading in enumerate(readings):
                self.go(reading, self.order)
            for block, reading in enumerate(readings if len(readings) == 2 else []):
                reading.stands_beside(readings[1 - block])
                self.go(reading, self.beside)
        except Told as told:
            rule, place = told.args
            block = 2 if rule // 100 == 6 else block
            return rule // 100, rule, block, min(place, max(len(serial if block == 2 else sets[block]) - 1, 0))
        return 0, 0, 0, 0
