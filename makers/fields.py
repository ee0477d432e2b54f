"""What a byte of a set is: its entry, its descriptor, and its field by chapter 9's name."""
import collections

from text import CONFIGURATION, DEVICE, FIELDS, STRING, WORDS

FRAME = [("total length", 2), ("number of entries", 1), ("byte 3", 1)]
ENTRY = [("type", 1), ("index", 1), ("language", 2), ("offset", 2), ("length", 2)]
HEAD = [("bLength", 1), ("bDescriptorType", 1)]
KINDS = {1: "device", 2: "configuration", 3: "string", 6: "device_qualifier", 7: "other_speed_configuration", 15: "BOS"}
QUALIFIER, OTHER_SPEED, BOS, COMPANION = 6, 7, 15, 48
# The fields of descriptors that no line of a text has.
OTHER_FIELDS = {
    QUALIFIER: [("bcdUSB", 2), ("bDeviceClass", 1), ("bDeviceSubClass", 1), ("bDeviceProtocol", 1), ("bMaxPacketSize0", 1), ("bNumConfigurations", 1), ("bReserved", 1)],
    BOS: [("wTotalLength", 2), ("bNumDeviceCaps", 1)],
    COMPANION: [("bMaxBurst", 1), ("bmAttributes", 1), ("wBytesPerInterval", 2)],
}

# A field: its name, and the bytes that it has in its block.
Field = collections.namedtuple("Field", "name start size")
# An entry of the contents: where it stands, what it says, and its body as far as the set has it.
Entry = collections.namedtuple("Entry", "at number kind index language offset length body")


def word(data, at):
    return int.from_bytes(data[at : at + 2], "little")


def entries_of(data):
    """The entries that stand whole in the set."""
    count, found = data[2] if len(data) > 2 else 0, []
    for at in range(4, min(4 + 8 * count, len(data) - 7), 8):
        offset, length = word(data, at + 4), word(data, at + 6)
        found.append(Entry(at, len(found) + 1, data[at], data[at + 1], word(data, at + 2), offset, length, data[offset : offset + length]))
    return found


def descriptors_in(body):
    """Where each descriptor of a body begins, as far as their lengths lead."""
    at = 0
    while at < len(body):
        yield at
        at += max(body[at], 1)


def field_in(fields, start, place):
    """The field of a row of fields, which begins at `start`, that holds a byte."""
    for name, size in fields:
        if start <= place < start + size:
            return Field(name, start, size)
        start += size
    return None


def fields_of(kind):
    """The fields of a descriptor of a type, with their sizes."""
    word = WORDS.get(CONFIGURATION if kind == OTHER_SPEED else kind)
    return HEAD + ([(name, size) for name, size, _ in FIELDS[word][1]] if word else OTHER_FIELDS.get(kind, []))


def descriptor_field(body, start, place):
    """The field of a configuration's body, which begins at `start`."""
    at = max((at for at in descriptors_in(body) if start + at <= place), default=0)
    kind = body[at + 1] if at + 1 < len(body) else 0
    return field_in(fields_of(kind), start + at, place) or Field(f"byte {place - start - at} of its descriptor", place, 1)


def body_field(entry, place):
    if entry.kind in (CONFIGURATION, OTHER_SPEED, BOS):
        return descriptor_field(entry.body, entry.offset, place)
    if entry.kind in (DEVICE, QUALIFIER):
        return field_in(fields_of(entry.kind), entry.offset, place) or Field("", place, 1)
    if entry.kind == STRING and entry.index == 0 and place >= entry.offset + 2:
        at = (place - entry.offset - 2) // 2
        return Field(f"wLANGID[{at}]", entry.offset + 2 + 2 * at, 2)
    return field_in(HEAD, entry.offset, place) or Field("", place, 1)


def entry_at(data, place):
    """The entry whose body holds a byte."""
    return next((entry for entry in entries_of(data) if entry.offset <= place < entry.offset + entry.length), None)


def field_at(data, place):
    """The field of a set that holds a byte."""
    entries = entries_of(data)
    if place < 4:
        return field_in(FRAME, 0, place)
    if place < 4 + 8 * len(entries):
        entry = entries[(place - 4) // 8]
        field = field_in(ENTRY, entry.at, place)
        return field._replace(name=f"{field.name} of entry {entry.number}")
    entry = entry_at(data, place)
    return body_field(entry, place) if entry else Field("", place, 1)


def serial_field(place):
    return field_in(HEAD, 0, place) or Field("", place, 1)
