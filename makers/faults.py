"""A fault in words: the rule, the byte by its field, what was found there, and what should stand there or may. The library says rule and byte."""
import collections

from fields import BOS, COMPANION, KINDS, OTHER_SPEED, QUALIFIER, Field, descriptors_in, entries_of, entry_at, field_at, serial_field, word
from lent import SERIAL
from rules import HIGH, SUPER, rule_words
from text import CONFIGURATION, DEVICE, ENDPOINT, INTERFACE, STRING, hexadecimal
from values import language_words

Words = collections.namedtuple("Words", "rule block place field found should allowed remark")


def counted(count, noun):
    return f"{count:,} {noun}{'s' * (count != 1)}"


def of_kind(data, kind):
    return [entry for entry in entries_of(data) if entry.kind == kind]


# ---- what has to stand at a byte, and why, where one value alone will do
def right_offset(data, serial, place):
    entries = entries_of(data)
    at = (place - 4) // 8
    if at == 0:
        return 4 + 8 * data[2], f"the contents end at byte {4 + 8 * data[2]}"
    end = entries[at - 1].offset + entries[at - 1].length
    return end, f"the body before it ends at byte {end}"


def right_last_length(data, serial, place):
    length = len(data) - entries_of(data)[-1].offset
    return (length, f"the set ends at byte {len(data)}") if length >= 2 else None


def right_configurations(data, serial, place):
    count = len(of_kind(data, CONFIGURATION))
    return (count, f"there {'are' if count > 1 else 'is'} {counted(count, 'configuration')}") if 1 <= count <= 8 else None


def right_index(data, serial, place):
    before = sum(entry.at < place - 1 for entry in of_kind(data, CONFIGURATION))
    return before, f"{counted(before, 'configuration')} {'stand' if before != 1 else 'stands'} before it"


def right_total(data, serial, place):
    length = entry_at(data, place).length
    return length, f"the body has {counted(length, 'byte')}"


def settings_in(body):
    return [at for at in descriptors_in(body) if body[at + 1 : at + 2] == bytes([INTERFACE]) and at + 4 < len(body)]


def right_interfaces(data, serial, place):
    body = entry_at(data, place).body
    count = len({body[at + 2] for at in settings_in(body)})
    return (count, f"{counted(count, 'interface number')} {'follow' if count > 1 else 'follows'}") if 1 <= count <= 16 else None


def right_endpoints(data, serial, place):
    entry = entry_at(data, place)
    here = place - 4 - entry.offset
    end = min((at for at in settings_in(entry.body) if at > here), default=len(entry.body))
    count = sum(here < at < end and entry.body[at + 1 : at + 2] == bytes([ENDPOINT]) for at in descriptors_in(entry.body))
    return count, f"{counted(count, 'endpoint')} {'follow' if count != 1 else 'follows'} before the next interface or the end"


def right_string_length(data, serial, place):
    length = entry_at(data, place).length
    return (length, f"its entry's length is {length}") if length < 256 else None


def right_store_length(data, serial, place):
    length = entry_at(data, place).length
    return length, f"the BOS has {counted(length, 'byte')}"


def always(value):
    return lambda data, serial, place: (value, "")


EXACT = {
    103: lambda data, serial, place: (len(data), f"the file has {counted(len(data), 'byte')}"),
    204: right_offset, 205: right_last_length, 309: right_configurations, 310: right_configurations, 311: right_configurations, 401: right_index,
    407: right_total, 414: right_interfaces, 415: right_interfaces, 419: right_interfaces, 421: right_endpoints, 501: right_string_length,
    605: lambda data, serial, place: (len(serial), f"the block has {counted(len(serial), 'byte')}"),
    316: right_store_length, **{rule: always(0) for rule in (106, 302, 303, 313, 314, 402, 416, 417, 2402, 2403, 2408)},
    **{rule: always(18) for rule in (304, 305)}, 306: always(1), 405: always(2), 502: always(3), 606: always(3), 2404: always(10),
}
# Where one value alone will do by the limits of a speed.
EXACT_BY_LIMITS = {HIGH: {307: 64, 428: 512}, SUPER: {307: 9, 428: 1024}}


# ---- a pair: what a set has to have, by the other
Mirrored = collections.namedtuple("Mirrored", "entry original body")


def mirrored(lent, block, place):
    """The type 6 or 7 entry that a byte belongs to, the entry of the other set that it is made of, and the body that it should have; None if it is one too many."""
    data, others = lent.sets[block], entries_of(lent.sets[1 - block])
    entries = entries_of(data)
    entry = entries[(place - 4) // 8] if place < 4 + 8 * len(entries) else entry_at(data, place)
    if entry.kind == QUALIFIER:
        device = next(other for other in others if other.kind == DEVICE)
        return Mirrored(entry, device, bytes([10, QUALIFIER]) + device.body[2:8] + device.body[17:18] + b"\0")
    before = sum(other.kind == OTHER_SPEED and other.at < entry.at for other in entries)
    configurations = of_kind(lent.sets[1 - block], CONFIGURATION)[before : before + 1]
    return Mirrored(entry, configurations[0], configurations[0].body[:1] + bytes([OTHER_SPEED]) + configurations[0].body[2:]) if configurations else None


def right_by_other(lent, fault):
    """The value that the other set makes it have."""
    found = mirrored(lent, fault.block, fault.place)
    if not found:
        return None
    if fault.rule == 2407:
        return found.original.index, ""
    if fault.rule == 2409:
        return found.original.length, ""
    field = field_at(lent.sets[fault.block], fault.place)
    start = field.start - found.entry.offset
    return int.from_bytes(found.body[start : start + field.size], "little"), ""


BY_OTHER = (2405, 2407, 2409, 2410)


def should_be(lent, fault):
    """The one value that will do, and why; None where there are several or none."""
    if fault.rule in BY_OTHER:
        return right_by_other(lent, fault)
    data = lent.sets[0 if fault.block == SERIAL else fault.block]
    limited = EXACT_BY_LIMITS.get(lent.limits_of(fault.block), {}).get(fault.rule) if fault.block != SERIAL else None
    if limited is not None:
        return limited, ""
    right = EXACT.get(fault.rule)
    return right(data, lent.serial, fault.place) if right else None


# ---- entries that are missing: they are told where they have to stand
ABSENT = {312: BOS, 2401: QUALIFIER, 2406: OTHER_SPEED}


def is_absent(data, fault):
    """Whether a rule tells of an entry that is not there, rather than of one too many."""
    entries = entries_of(data)
    at = (fault.place - 4) // 8
    return fault.rule in ABSENT and not (at < len(entries) and entries[at].kind == ABSENT[fault.rule])


# ---- what else helps
def descriptor_start(data, place):
    """Where the descriptor of a configuration that holds a byte begins."""
    entry = entry_at(data, place)
    return max(entry.offset + at for at in descriptors_in(entry.body) if entry.offset + at <= place)


def settings_and_endpoints(data, place):
    """The configuration's interfaces and endpoints before a byte: where each begins, its type, its interface and alternate setting."""
    entry, setting = entry_at(data, place), (None, None)
    for at in descriptors_in(entry.body):
        if entry.offset + at + 2 > place or at + 3 >= len(entry.body):
            return
        if entry.body[at + 1] == INTERFACE:
            setting = entry.body[at + 2], entry.body[at + 3]
        if entry.body[at + 1] in (INTERFACE, ENDPOINT):
            yield entry.offset + at, entry.body[at + 1], setting


def remark_before(data, serial, place):
    """The interface before the one at fault."""
    start = descriptor_start(data, place)
    number, alternate = [setting for at, kind, setting in settings_and_endpoints(data, place) if kind == INTERFACE and at < start][-1]
    return (f"before it stands interface {number}, alternate setting {alternate}: next comes interface {number}, alternate setting {alternate + 1}, "
            f"or interface {number + 1}, alternate setting 0")


def remark_address(data, serial, place):
    """Where the same address stands before."""
    *before, (_, _, here) = [row for row in settings_and_endpoints(data, place) if row[1] == ENDPOINT]
    for at, _, (number, alternate) in before:
        if data[at + 2] == data[place] and (number != here[0] or alternate == here[1]):
            return f"the endpoint at byte {at} has it too, in interface {number}, alternate setting {alternate}"
    return ""


def remark_value(data, serial, place):
    others = [entry for entry in of_kind(data, CONFIGURATION) if entry.offset + 5 < place and entry.body[5:6] == data[place : place + 1]]
    return f"the configuration at byte {others[0].offset} has it too" if others else ""


def remark_order(data, serial, place):
    entries = entries_of(data)
    before = entries[(place - 4) // 8 - 1]
    return f"entry {before.number} before it has type {before.kind}, index {before.index}, language {before.language:04X}"


def remark_end(data, serial, place):
    entry = entry_at(data, place)
    return f"it would end at byte {place + data[place]}, and its body ends at byte {entry.offset + entry.length}"


def languages_of(data):
    """The languages that string 0 lists; None without string 0."""
    for entry in of_kind(data, STRING):
        if (entry.index, entry.language) == (0, 0):
            return [word(entry.body, at) for at in range(2, len(entry.body) - 1, 2)]
    return None


def language_list(languages):
    return ", ".join(map(language_words, languages)) or "no language"


def missing_languages(data, index):
    """The listed languages in which a string is not there."""
    there = {(entry.index, entry.language) for entry in of_kind(data, STRING)}
    return [language for language in languages_of(data) or [] if (index, language) not in there]


def remark_reference(data, serial, place):
    return f"string {data[place]} is missing in {language_list(missing_languages(data, data[place]))}"


def remark_numbers(data, serial, place):
    """A string whose index and language do not go together: either may be the wrong one."""
    entry = entries_of(data)[(place - 4) // 8]
    return f"this entry has index {entry.index} and language {entry.language:04X}; string 0 has index 0 and language 0000, a string neither"


def remark_no_list(data, serial, place):
    """A reference without string 0, or strings without it."""
    if place >= 4 + 8 * len(entries_of(data)):
        return f"this names string {data[place]}, and the set has no string 0"
    return "the set has strings, and no string 0"


def remark_serial(data, serial, place):
    index = serial_index(data)
    if not serial:
        return f"this set names a serial number (string {index}): give a serial block"
    return f"this set names a serial number (string {index}), and the block has {counted(len(serial), 'byte')}"


def serial_index(data):
    """iSerialNumber of a set whose device is good."""
    return of_kind(data, DEVICE)[0].body[16]


# ---- remarks on a pair and on a SuperSpeed set
def remark_store(lent, fault):
    there = of_kind(lent.sets[0], BOS)
    return f"entry {there[0].number} is a BOS already" if there else "this set has no BOS"


def remark_companion(lent, fault):
    """What stands behind the endpoint that lacks its companion."""
    entry = entry_at(lent.sets[0], fault.place)
    behind = fault.place - entry.offset + lent.sets[0][fault.place]
    return f"behind it stands {type_words(entry.body[behind + 1])} at byte {entry.offset + behind}" if behind + 1 < len(entry.body) else "its configuration ends behind it"


def remark_stray(lent, fault):
    entry = entry_at(lent.sets[0], fault.place)
    before = [at for at in descriptors_in(entry.body) if entry.offset + at < fault.place - 1]
    return f"before it stands {type_words(entry.body[before[-1] + 1])} at byte {entry.offset + before[-1]}" if before else ""


def remark_qualifier(lent, fault):
    there = of_kind(lent.sets[fault.block], QUALIFIER)
    return f"entry {there[0].number} has type 6 already" if there else f"{lent.name_of(fault.block)} has no type 6 entry"


def remark_counts(lent, fault):
    here, there = of_kind(lent.sets[fault.block], OTHER_SPEED), of_kind(lent.sets[1 - fault.block], CONFIGURATION)
    return f"{lent.name_of(1 - fault.block)} has {counted(len(there), 'configuration')}, {lent.name_of(fault.block)} {counted(len(here), 'type 7 entry').replace('entrys', 'entries')}"


def remark_other_entry(lent, fault):
    found = mirrored(lent, fault.block, fault.place)
    has = f"index {found.original.index}" if fault.rule == 2407 else counted(found.original.length, "byte")
    return f"entry {found.original.number} of {lent.name_of(1 - fault.block)} has {has}"


def remark_other_byte(lent, fault):
    """What the other set has there; bytes that are its own in every type 6 or 7 are in none."""
    found = mirrored(lent, fault.block, fault.place)
    at = fault.place - found.entry.offset
    if found.entry.kind == QUALIFIER:
        at = {8: 17}.get(at, at if 2 <= at < 8 else None)
    if at is None or found.entry.kind == OTHER_SPEED and at == 1:
        return ""
    other = lent.sets[1 - fault.block]
    field = field_at(other, found.original.offset + at)
    has = in_bytes(int.from_bytes(other[field.start : field.start + field.size], "little"), field.size)
    return f"byte {found.original.offset + at} of {lent.name_of(1 - fault.block)}" + (f", {field.name}," if field.name else "") + f" has {has}"


REMARKS = {
    202: remark_order, 404: remark_end, 418: remark_before, 433: remark_address, 434: remark_address, 436: remark_value,
    504: remark_numbers, 508: lambda data, serial, place: f"the language before it is {language_words(word(data, place - 2))}",
    509: lambda data, serial, place: f"string 0 lists {language_list(languages_of(data))}",
    510: remark_no_list, 511: lambda data, serial, place: f"iSerialNumber is {serial_index(data)}", 512: remark_reference,
    601: lambda data, serial, place: "iSerialNumber is 0: this set names no serial number", 603: remark_serial,
}
REMARKS_OF_KINDS = {
    312: remark_store, 438: remark_companion, 439: remark_stray, 2401: remark_qualifier, 2405: remark_other_byte, 2406: remark_counts,
    2407: remark_other_entry, 2409: remark_other_entry, 2410: remark_other_byte,
}


def remark_on(lent, fault):
    if fault.rule in REMARKS_OF_KINDS:
        return REMARKS_OF_KINDS[fault.rule](lent, fault)
    remark = REMARKS.get(fault.rule)
    return remark(named_by(lent, fault), lent.serial, fault.place) if remark else ""


def named_by(lent, fault):
    """The set that a fault is about; of the serial block, the one whose iSerialNumber it is judged by."""
    if fault.block != SERIAL:
        return lent.sets[fault.block]
    return next((data for data in lent.sets if fault.rule != 601 and of_kind(data, DEVICE) and serial_index(data)), lent.sets[0])


# ---- the words
def in_bytes(value, size):
    return f"{hexadecimal(value.to_bytes(size, 'little'))} ({value})"


def field_of(lent, fault):
    """The field at fault; of an entry that is not there, where it has to stand."""
    if fault.block == SERIAL:
        return serial_field(fault.place)
    data = lent.sets[fault.block]
    return Field("behind the last entry", fault.place, 0) if is_absent(data, fault) and fault.place >= 4 + 8 * len(entries_of(data)) else field_at(data, fault.place)


def found_words(lent, fault, field):
    if field.size == 0:
        return "no entry"
    here = lent.bytes_of(fault.block)[field.start : field.start + field.size]
    return in_bytes(int.from_bytes(here, "little"), len(here)) if here else ""


def words_of(lent, fault):
    field, exact = field_of(lent, fault), should_be(lent, fault)
    should = in_bytes(exact[0], field.size) + (f": {exact[1]}" if exact[1] else "") if exact and exact[0] < 256**field.size else ""
    rule, allowed = rule_words(fault.rule, lent.limits_of(0 if fault.block == SERIAL else fault.block))
    return Words(rule, lent.name_of(fault.block), fault.place, field.name, found_words(lent, fault, field), should, allowed, remark_on(lent, fault))


def byte_words(words):
    """The byte, what was found there, and what should be or may."""
    where = f"byte {words.place} of {words.block}" + (f", {words.field}" if words.field else "")
    wanted = f"should be {words.should}" if words.should else f"allowed: {words.allowed}"
    return f"{where}: found {words.found}, {wanted}" if words.found else f"{words.block} is empty"


def brief(lent, fault):
    """A fault on one line."""
    words = words_of(lent, fault)
    return f"rule {fault.rule}: {words.rule}; {byte_words(words)}" + (f"; {words.remark}" if words.remark else "")


DESCRIPTORS = {CONFIGURATION: "configuration descriptor", INTERFACE: "interface descriptor", ENDPOINT: "endpoint descriptor",
               OTHER_SPEED: "other_speed_configuration descriptor", COMPANION: "endpoint companion"}


def descriptor_name(kind):
    return DESCRIPTORS.get(kind, f"descriptor of type {kind:02X}")


def type_words(kind):
    name = descriptor_name(kind)
    return f"{'an' if name[0] in 'aeio' else 'a'} {name}"


def descriptor_words(data, entry, place):
    """The descriptor of a configuration that a byte lies in, and its interface."""
    setting, words = "", ""
    for at in descriptors_in(entry.body):
        if entry.offset + at > place:
            break
        kind = entry.body[at + 1] if at + 1 < len(entry.body) else 0
        if kind == INTERFACE and at + 3 < len(entry.body):
            setting = f", interface {entry.body[at + 2]}, alternate setting {entry.body[at + 3]}"
        words = f"descriptor: {descriptor_name(kind)} at byte {entry.offset + at}{setting}"
    return words


def entry_words(entry):
    return f"type {entry.kind} ({KINDS.get(entry.kind, 'no type')}), index {entry.index}, language {entry.language:04X}"


def where(data, fault):
    """The entry that a byte belongs to, in words."""
    entries, place = entries_of(data), fault.place
    if place < 4:
        return ["in the frame"]
    if is_absent(data, fault):
        return []
    if place < 4 + 8 * len(entries):
        entry = entries[(place - 4) // 8]
        return [f"entry {entry.number} of the contents: {entry_words(entry)}"]
    entry = entry_at(data, place)
    if not entry:
        return ["behind all bodies"]
    more = [descriptor_words(data, entry, place)] if entry.kind in (CONFIGURATION, OTHER_SPEED) else []
    return [f"body of entry {entry.number}: {entry_words(entry)}, at byte {entry.offset}", *more]


def dump(data, place):
    """Three lines of hexadecimal, the byte in brackets."""
    for start in range(max(0, place // 16 - 1) * 16, min(len(data), place // 16 * 16 + 32), 16):
        cells = [f"[{byte:02X}]" if start + k == place else f" {byte:02X} " for k, byte in enumerate(data[start : start + 16])]
        yield f"{start:5}  {''.join(cells).rstrip()}"


def explain(lent, fault):
    """All there is to say of a fault."""
    words = words_of(lent, fault)
    yield f"refused {fault.number}, rule {fault.rule}: {words.rule}"
    yield f"    {byte_words(words)}"
    if words.remark:
        yield f"    {words.remark}"
    if fault.block != SERIAL:
        yield from (f"    {line}" for line in where(lent.sets[fault.block], fault))
    yield from (f"        {line}" for line in dump(lent.bytes_of(fault.block), fault.place))
