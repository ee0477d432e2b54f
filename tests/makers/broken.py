"""Which rule of opening a set breaks first, and where: document 01 and the numbers of docs/MAKERS.md once more, apart from the library; of a set that is lent
alone, of a pair, and of a SuperSpeed set.

Rules are asked one after another, as (whether it holds, its number, its place); what is behind a broken rule is read only if one goes on asking.
"""
import collections

# What is lent: the set or the pair's two, by the limits of each, and the serial block.
Given = collections.namedtuple("Given", "sets limits serial")
SERIAL = 2

# Types of entries, bMaxPacketSize0, whether a size fits by transfer type (1 isochronous, 2 bulk, 3 interrupt), an interrupt endpoint's longest interval.
Limits = collections.namedtuple("Limits", "kinds control_sizes fits longest is_super", defaults=[False])


def fits_full(transfer, size):
    return size <= 1023 if transfer == 1 else size in (8, 16, 32, 64) if transfer == 2 else size <= 64


def fits_high(transfer, size):
    return size == 512 if transfer == 2 else size & 0x7FF <= 1024 and size >> 11 <= 2


def fits_super(transfer, size):
    return size == 1024 if transfer == 2 else (transfer == 3) <= size <= 1024


ALONE = Limits((1, 2, 3), (8, 16, 32, 64), fits_full, 255)
FULL = ALONE._replace(kinds=(1, 2, 3, 6, 7))
HIGH = Limits((1, 2, 3, 6, 7), (64,), fits_high, 16)
SUPER = Limits((1, 2, 3, 15), (9,), fits_super, 16, True)


def alone(data, serial):
    return Given((data,), (ALONE,), serial)


def a_super(data, serial):
    return Given((data,), (SUPER,), serial)


def a_pair(full, high, serial):
    return Given((full, high), (FULL, HIGH), serial)


def word(data, at):
    return int.from_bytes(data[at : at + 2], "little")


def check_frame(data):
    yield len(data) >= 4, 101, 3
    yield len(data) <= 16384, 102, 16384
    yield word(data, 0) == len(data), 103, 0
    yield data[2] >= 1, 104, 2
    yield data[2] <= 64, 105, 2
    yield data[3] == 0, 106, 3
    yield 4 + 8 * data[2] <= len(data), 107, 2


def check_contents(data, limits):
    """The entries: where they stand, type, index, language, where the body begins, and the body."""
    start, last, entries = 4 + 8 * data[2], None, []
    for at in range(4, 4 + 8 * data[2], 8):
        kind, index, language, offset, length = data[at], data[at + 1], word(data, at + 2), word(data, at + 4), word(data, at + 6)
        yield kind in limits.kinds, 201, at
        yield last is None or last < (kind, language, index), 202, at
        yield length >= 2, 203, at + 6
        yield offset == start, 204, at + 4
        last, start = (kind, language, index), start + length
        entries.append((at, kind, index, language, offset, data[offset : offset + length]))
    yield start == len(data), 205, 4 + 8 * data[2] - 2
    return entries


def check_device(entries, limits):
    devices = [entry for entry in entries if entry[1] == 1]
    yield devices, 301, 4
    yield len(devices) == 1, 301, 12
    _, _, index, language, start, body = devices[0]
    yield index == 0, 302, 5
    yield language == 0, 303, 6
    yield len(body) == 18, 304, 10
    yield body[0] == 18, 305, start
    yield body[1] == 1, 306, start + 1
    yield body[7] in limits.control_sizes, 307, start + 7
    yield body[4] != 0 or body[5] == 0, 308, start + 5
    yield body[17] >= 1, 309, start + 17
    yield body[17] <= 8, 310, start + 17
    yield body[17] == sum(entry[1] == 2 for entry in entries), 311, start + 17
    return body


def check_store(entries):
    """The BOS."""
    stores = [entry for entry in entries if entry[1] == 15]
    yield stores, 312, 4 + 8 * len(entries)
    yield len(stores) == 1, 312, stores[1][0] if len(stores) > 1 else 0
    at, _, index, language, start, body = stores[0]
    yield index == 0, 313, at + 1
    yield language == 0, 314, at + 2
    yield len(body) >= 5, 315, at + 6
    yield word(body, 2) == len(body), 316, start + 2


def check_whole(body, at, start):
    """The descriptor at a place of a body."""
    yield body[at] >= 2, 403, start + at
    yield at + body[at] <= len(body), 404, start + at
    return body[at : at + body[at]]


def check_head(d, size, start):
    yield d[1] == 2, 405, start + 1
    yield len(d) >= 9, 406, start
    yield word(d, 2) == size, 407, start + 2
    yield d[7] & 0x80, 408, start + 7
    yield d[7] & 0x1F == 0, 409, start + 7
    yield d[8] <= 250, 410, start + 8
    yield d[4] >= 1, 414, start + 4
    yield d[4] <= 16, 415, start + 4


def check_endpoint(d, place, limits):
    address, attributes, size, interval = d[2], d[3], word(d, 4), d[6]
    transfer = attributes & 3
    yield address & 0x70 == 0, 423, place + 2
    yield address & 0x0F, 424, place + 2
    yield attributes & 0xC0 == 0, 425, place + 3
    yield transfer, 426, place + 3
    yield attributes & 0x3C == 0 or transfer == 1, 427, place + 3
    yield transfer != 2 or limits.fits(2, size), 428, place + 4
    yield transfer != 3 or limits.fits(3, size), 429, place + 4
    yield transfer != 1 or limits.fits(1, size), 430, place + 4
    yield transfer != 3 or 1 <= interval <= limits.longest, 431, place + 6
    yield transfer != 1 or 1 <= interval <= 16, 432, place + 6


class Settings:
    """The interfaces and endpoints of a body, as they come."""

    def __init__(self, start, limits):
        self.limits = limits
        self.start, self.last, self.head, self.wanted, self.listed, self.seen = start, None, 0, 0, [], {}

    def check_count(self):
        """The setting that ends: its bNumEndpoints."""
        yield len(self.listed) == self.wanted, 421, self.start + self.head + 4

    def interface(self, d, at):
        place = self.start + at
        yield from self.check_count()
        yield len(d) >= 9, 412, place
        now = (d[2], d[3])
        if self.last is None:
            yield d[2] == 0, 416, place + 2
            yield d[3] == 0, 417, place + 3
        else:
            number, alternate = self.last
            wrong = 3 if d[2] in (number, number + 1) else 2
            yield now in ((number, alternate + 1), (number + 1, 0)), 418, place + wrong
        yield d[3] <= 15, 420, place + 3
        self.last, self.head, self.wanted, self.listed = now, at, d[4], []

    def endpoint(self, d, at):
        place = self.start + at
        yield len(d) >= 7, 413, place
        yield self.last is not None, 422, place
        yield len(self.listed) < self.wanted, 421, self.start + self.head + 4
        yield from check_endpoint(d, place, self.limits)
        yield d[2] not in self.listed, 433, place + 2
        yield self.seen.get(d[2], self.last[0]) == self.last[0], 434, place + 2
        self.listed.append(d[2])
        self.seen[d[2]] = self.last[0]


def check_body(body, start, limits):
    head = yield from check_whole(body, 0, start)
    yield from check_head(head, len(body), start)
    settings, at = Settings(start, limits), len(head)
    while at < len(body):
        d = yield from check_whole(body, at, start)
        yield d[1] not in (1, 2, 3, 6, 7), 411, start + at + 1
        if d[1] == 4:
            yield from settings.interface(d, at)
        if d[1] == 5:
            yield from settings.endpoint(d, at)
        at += len(d)
    yield from settings.check_count()
    yield settings.last is not None and settings.last[0] == head[4] - 1, 419, start + 4


def check_companions(body, start):
    """Directly after every endpoint, and nowhere else."""
    at, endpoint = 0, None
    while at < len(body):
        is_companion = body[at + 1] == 48
        yield endpoint is None or is_companion, 438, start + (endpoint or 0)
        yield endpoint is not None or not is_companion, 439, start + at + 1
        yield not is_companion or body[at] >= 6, 437, start + at
        endpoint = at if body[at + 1] == 5 else None
        at += body[at]
    yield endpoint is None, 438, start + (endpoint or 0)


def check_configurations(entries, limits):
    values = []
    for at, kind, index, language, start, body in entries:
        if kind == 2:
            yield index == len(values), 401, at + 1
            yield language == 0, 402, at + 2
            yield from check_body(body, start, limits)
            if limits.is_super:
                yield from check_companions(body, start)
            yield body[5] >= 1, 435, start + 5
            yield body[5] not in values, 436, start + 5
            values.append(body[5])


def check_languages(ls, start):
    yield ls, 505, start
    yield len(ls) <= 4, 506, start + 10
    last = 0
    for k, language in enumerate(ls):
        yield language >= 1, 507, start + 2 + 2 * k
        yield last < language, 508, start + 2 + 2 * k
        last = language


def check_strings(entries, ls, serial):
    """Each by itself."""
    for at, _, index, language, start, body in entries:
        yield body[0] == len(body), 501, start
        yield body[1] == 3, 502, start + 1
        yield len(body) % 2 == 0 and len(body) <= 254, 503, start
        yield (language == 0) == (index == 0), 504, at + 2
        if index == 0:
            yield from check_languages(ls, start)
        yield serial == 0 or index != serial, 511, at + 1


def references_of(device, device_at, entries):
    """Every reference with its place."""
    yield from ((device_at + k, device[k]) for k in (14, 15, 16))
    for _, kind, _, _, start, body in entries:
        if kind == 2:
            yield start + 6, body[6]
            at = 0
            while at < len(body):
                if body[at + 1] == 4:
                    yield start + at + 8, body[at + 8]
                at += body[at]


def check_texts(entries, device, device_at):
    strings = [entry for entry in entries if entry[1] == 3]
    zero = next((entry for entry in strings if entry[2] == 0 and entry[3] == 0), None)
    ls = [word(zero[5], at) for at in range(2, len(zero[5]) - 1, 2)] if zero else []
    yield from check_strings(strings, ls, device[16])
    yield not strings or zero, 510, 12 + 8 * sum(entry[1] == 2 for entry in entries)
    for at, _, index, language, _, _ in strings:
        yield index == 0 or language in ls, 509, at + 2
    for place, r in references_of(device, device_at, entries):
        yield r == 0 or zero, 510, place
        there = all(any((entry[2], entry[3]) == (r, language) for entry in strings) for language in ls)
        yield r in (0, device[16]) or there, 512, place


def check_serial(index, serial):
    if index == 0:
        yield not serial, 601, 0
        return
    yield len(serial) % 2 == 0, 602, 0
    yield len(serial) >= 4, 603, 3
    yield len(serial) <= 254, 604, 254
    yield serial[0] == len(serial), 605, 0
    yield serial[1] == 3, 606, 1


def rules_of(data, limits, serial):
    """Every rule of a set, in opening's order; the entries."""
    yield from check_frame(data)
    entries = yield from check_contents(data, limits)
    device = yield from check_device(entries, limits)
    if limits.is_super:
        yield from check_store(entries)
    yield from check_configurations(entries, limits)
    yield from check_texts(entries, device, entries[0][4])
    yield from check_serial(device[16], serial)
    return entries


def agreeing(one, other):
    return next((at for at, bytes_there in enumerate(zip(one, other)) if bytes_there[0] != bytes_there[1]), min(len(one), len(other)))


def check_qualifier(entries, device):
    found = [entry for entry in entries if entry[1] == 6]
    yield found, 2401, 4 + 8 * sum(entry[1] < 6 for entry in entries)
    yield len(found) == 1, 2401, found[1][0] if len(found) > 1 else 0
    at, _, index, language, start, body = found[0]
    wanted = bytes([10, 6]) + device[2:8] + device[17:18] + bytes(1)
    yield index == 0, 2402, at + 1
    yield language == 0, 2403, at + 2
    yield len(body) == 10, 2404, at + 6
    yield body == wanted, 2405, start + agreeing(body, wanted)


def check_beside(entries, others):
    """24: what a set says of the other."""
    yield from check_qualifier(entries, others[0][5])
    left = [entry for entry in others if entry[1] == 2]
    for at, kind, index, language, start, body in entries:
        if kind == 7:
            yield left, 2406, at
            _, _, other_index, _, _, other = left.pop(0)
            wanted = other[:1] + bytes([7]) + other[2:]
            yield index == other_index, 2407, at + 1
            yield language == 0, 2408, at + 2
            yield len(body) == len(other), 2409, at + 6
            yield body == wanted, 2410, start + agreeing(body, wanted)
    yield not left, 2406, 4 + 8 * len(entries)


def in_block(block, asked):
    """The rules of one block; what is returned stays."""
    while True:
        try:
            holds, rule, place = next(asked)
        except StopIteration as end:
            return end.value
        yield holds, rule, place, SERIAL if rule // 100 == 6 else block


def every_rule(given):
    """With the block that each is about: a set's number, or that of the serial block."""
    read = []
    for block, (data, limits) in enumerate(zip(given.sets, given.limits)):
        read.append((yield from in_block(block, rules_of(data, limits, given.serial))))
    if len(read) == 2:
        yield from in_block(0, check_beside(*read))
        yield from in_block(1, check_beside(*reversed(read)))


def broken_rules(given):
    """The rules that are broken, of the first group of a set that is: rule, place and block, as far as there is something to read."""
    first = None
    try:
        for holds, rule, place, block in every_rule(given):
            if first not in (None, (rule // 100, block)):
                return
            if not holds:
                first = rule // 100, block
                yield rule, place, block
            if not holds and rule in (403, 404, 422):  # behind it no descriptor can be told, or no setting
                return
    except IndexError:  # bytes that a rule behind a broken one asks for are missing
        if first is None:
            raise


def inside(lent, place):
    return min(place, max(len(lent) - 1, 0))


def lent_for(given, block):
    return given.serial if block == SERIAL else given.sets[block]


def answer(found, given):
    """Opening's number, the rule, the block and the place; all 0 where nothing is found."""
    if found is None:
        return 0, 0, 0, 0
    rule, place, block = found
    return rule // 100, rule, block, inside(lent_for(given, block), place)


def first_broken(given):
    return answer(next(broken_rules(given), None), given)


# ---- planted faults: what else might be told; each gives an answer for the rules that are broken, of which there is one at least
def one_rule_on(found, given):
    number, rule, block, place = answer(found[0], given)
    return number, rule + 1, block, place


def one_byte_on(found, given):
    number, rule, block, place = answer(found[0], given)
    return number, rule, block, place + 1


def second_told(found, given):
    return answer(found[:2][-1], given)


def last_told(found, given):
    return answer(found[-1], given)


def lowest_rule_told(found, given):
    return answer(min(found), given)


def lowest_byte_told(found, given):
    return answer(min(found, key=lambda broken: broken[1]), given)


def told_in_the_set(found, given):
    rule, place, block = found[0]
    return rule // 100, rule, 0, inside(given.sets[0], place)


def told_in_the_other_set(found, given):
    number, rule, block, place = answer(found[0], given)
    return number, rule, 1 - block if len(given.sets) == 2 and block != SERIAL else block, place


def told_past_the_end(found, given):
    rule, place, block = found[0]
    return rule // 100, rule, block, place


def told_from_its_body(found, given):
    """As if the body that holds the place began at 0."""
    number, rule, block, place = answer(found[0], given)
    data = lent_for(given, block)
    starts = [word(data, at + 4) for at in range(4, 4 + 8 * data[2], 8)] if number in (3, 4, 5, 24) else []
    return number, rule, block, place - max([start for start in starts if start <= place], default=0)


def left_out(left):
    """A rule that is never told."""
    return lambda found, given: answer(next((broken for broken in found if broken[0] != left), None), given)


def exchanged(one, other):
    """Two rules told in the other order, where both are broken."""

    def told(found, given):
        first = [broken[0] for broken in found]
        return answer(found[first.index(other)] if first[0] == one and other in first else found[0], given)

    return told


FAULTS = {
    "told-rule-one-on": one_rule_on,
    "told-place-one-on": one_byte_on,
    "second-fault-told": second_told,
    "last-fault-told": last_told,
    "lowest-rule-told": lowest_rule_told,
    "lowest-byte-told": lowest_byte_told,
    "serial-place-in-the-set": told_in_the_set,
    "told-in-the-other-set": told_in_the_other_set,
    "told-place-past-the-end": told_past_the_end,
    "told-place-from-its-body": told_from_its_body,
    **{f"{other}-told-before-{one}": exchanged(one, other) for one, other in ((504, 510), (511, 509), (502, 510), (439, 437), (438, 435), (2405, 2410), (2402, 2405), (2407, 2409), (313, 316))},
}
