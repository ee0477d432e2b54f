"""The text of a set: its lines to pieces, and the entries of a set back to lines. `makers/write` without arguments tells the form."""
import json, re

from values import BITS, LANGUAGES, UNITS, VALUES, joined_bits, language_word, value_word

DEVICE, CONFIGURATION, STRING, INTERFACE, ENDPOINT = 1, 2, 3, 4, 5

# Each kind of line with fields: bDescriptorType, and the fields behind it with their sizes and values; None is counted.
FIELDS = {
    "device": (DEVICE, [("bcdUSB", 2, 0x0200), ("bDeviceClass", 1, 0), ("bDeviceSubClass", 1, 0), ("bDeviceProtocol", 1, 0),
                        ("bMaxPacketSize0", 1, 64), ("idVendor", 2, 0), ("idProduct", 2, 0), ("bcdDevice", 2, 0x0100), ("iManufacturer", 1, 0),
                        ("iProduct", 1, 0), ("iSerialNumber", 1, 0), ("bNumConfigurations", 1, None)]),
    "configuration": (CONFIGURATION, [("wTotalLength", 2, None), ("bNumInterfaces", 1, None), ("bConfigurationValue", 1, 1),
                                      ("iConfiguration", 1, 0), ("bmAttributes", 1, 0x80), ("bMaxPower", 1, 50)]),
    "interface": (INTERFACE, [("bInterfaceNumber", 1, 0), ("bAlternateSetting", 1, 0), ("bNumEndpoints", 1, None), ("bInterfaceClass", 1, 0xFF),
                              ("bInterfaceSubClass", 1, 0), ("bInterfaceProtocol", 1, 0), ("iInterface", 1, 0)]),
    "endpoint": (ENDPOINT, [("bEndpointAddress", 1, 0x81), ("bmAttributes", 1, 3), ("wMaxPacketSize", 2, 8), ("bInterval", 1, 10)]),
}
WORDS = {kind: word for word, (kind, _) in FIELDS.items()}
# `bytes` holds one descriptor, whose first byte is its length; `bytes!` holds whatever it says.
RAW = ("bytes", "bytes!")
IN_HEXADECIMAL = re.compile(r"bcd|id|bm|b.*(Class|Protocol|Address)$")


class Mistake(Exception):
    pass


class Line:
    """A line of a text: its number, its first word and the rest of it."""

    def __init__(self, number, text):
        self.number, self.text = number, text
        self.word, _, self.rest = text.partition(" ")
        self.rest = self.rest.strip()

    def mistake(self, what):
        return Mistake(f"line {self.number}: {what}")

    def read_number(self, word, size):
        try:
            value = int(word, 0)
        except ValueError:
            raise self.mistake(f"{word} is no number") from None
        if not 0 <= value < 256**size:
            raise self.mistake(f"{word} has no room in {size} byte{'s' * (size > 1)}")
        return value

    def read_bytes(self, words):
        try:
            return bytes.fromhex(words)
        except ValueError:
            raise self.mistake(f"{words} is not hexadecimal") from None

    def read_language(self, word):
        """A language by its name or its number."""
        named = {name.lower(): number for name, number in LANGUAGES.items()}.get(word.lower())
        if named is None and re.fullmatch("[A-Za-z]{2,3}(-[A-Za-z]+)*", word):
            raise self.mistake(f"{word} is no language that is known by its name: give its number, as 0x0409 for en-US")
        return self.read_number(word, 2) if named is None else named

    def read_value(self, name, word, size):
        """A field's value: a number, a number with its unit, or words for it. Words that are joined by + set their bits together."""
        known, (unit, step) = VALUES.get(self.word, {}).get(name, {}), UNITS.get(name, ("", 1))
        measured = re.fullmatch(rf"(\d+){unit}", word) if unit else None
        if measured and int(measured[1]) % step:
            raise self.mistake(f"{word}: {name} counts {step} {unit}")
        if measured:
            return self.read_number(str(int(measured[1]) // step), size)
        parts = word.split("+") if name in BITS else [word]
        if all(part in known for part in parts):
            return joined_bits(known[part] for part in parts)
        if known and re.match("[A-Za-z+-]", word):
            raise self.mistake(f"{word} is no number, and none of {', '.join(known)}")
        return self.read_number(word, size)

    def raw_bytes(self):
        """What stands on a line `bytes`: one descriptor, unless the line is `bytes!`."""
        data = self.read_bytes(self.rest)
        if self.word == "bytes" and not data:
            raise self.mistake("bytes has the bytes of a descriptor, as bytes 05 24 00 10 01")
        if self.word == "bytes" and data[0] != len(data):
            stand = f"{len(data)} byte{'s stand' if len(data) > 1 else ' stands'} here"
            raise self.mistake(f"bLength says {data[0]}, {stand} (bytes! takes them as they are)")
        return data

    def length(self):
        """How many bytes the line's descriptor has."""
        if self.word in RAW:
            return len(self.raw_bytes())
        return 2 + sum(size for _, size, _ in FIELDS[self.word][1]) + len(self.named()[1])

    def named(self):
        """The fields that the line names, by name, and the bytes behind the fields."""
        kind, fields = FIELDS[self.word]
        sizes = {name: size for name, size, _ in fields}
        rest, _, more = f" {self.rest}".partition(" more ")
        words = re.split(r"[ =]+", rest.strip()) if rest.strip() else []
        if len(words) % 2 or any(name not in sizes for name in words[::2]):
            raise self.mistake(f"{self.word} has the fields {', '.join(sizes)}, each with its value")
        return {name: self.read_value(name, value, sizes[name]) for name, value in zip(words[::2], words[1::2])}, self.read_bytes(more)

    def descriptor(self, **counted):
        if self.word in RAW:
            return self.raw_bytes()
        kind, fields = FIELDS[self.word]
        named, more = self.named()
        body = b""
        for name, size, value in fields:
            value = named.get(name, counted.get(name, value))
            if value >= 256**size:
                raise self.mistake(f"{name} is counted as {value}, and has no room for it")
            body += value.to_bytes(size, "little")
        if len(body + more) > 253:
            raise self.mistake("a descriptor has at most 255 bytes")
        return bytes([2 + len(body + more), kind]) + body + more


def read_lines(texts):
    for number, text in enumerate(texts, 1):
        text = re.sub(r"(^|\s)#.*", "", text).replace("\t", " ").strip()
        if text:
            yield Line(number, text)


# ---- from a text to pieces
def string_body(line, text):
    if text.startswith('"'):
        try:
            text = json.loads(text)
        except ValueError:
            raise line.mistake(f"{text} does not end as a text in quotation marks does") from None
    body = text.encode("utf-16-le", "surrogatepass")
    if len(body) > 252:
        raise line.mistake("a string has at most 126 letters")
    return bytes([2 + len(body), STRING]) + body


def configuration_body(lines):
    """A configuration's line and those that belong to it."""
    settings = [at for at, line in enumerate(lines) if line.word == "interface"]
    ends = settings[1:] + [len(lines)]
    endpoints = {start: sum(line.word == "endpoint" for line in lines[start:end]) for start, end in zip(settings, ends)}
    numbers = {lines[at].named()[0].get("bInterfaceNumber", 0) for at in settings}
    body = b"".join(line.descriptor(bNumEndpoints=endpoints.get(at)) for at, line in enumerate(lines) if at > 0)
    size = len(lines[0].descriptor(wTotalLength=0, bNumInterfaces=0)) + len(body)
    if size > 65535:
        raise lines[0].mistake("this configuration is longer than two bytes can say")
    return lines[0].descriptor(wTotalLength=size, bNumInterfaces=len(numbers)) + body


def entry_of(group, configurations):
    """Type, index, language and body of a line and those that belong to it."""
    line = group[0]
    if line.word == "device":
        return DEVICE, 0, 0, line.descriptor(bNumConfigurations=len(configurations))
    if line.word == "configuration":
        return CONFIGURATION, configurations.index(line), 0, configuration_body(group)
    if line.word == "languages":
        numbers = [line.read_language(word) for word in line.rest.split()]
        return STRING, 0, 0, bytes([2 + 2 * len(numbers), STRING]) + b"".join(n.to_bytes(2, "little") for n in numbers)
    words = line.rest.split(None, 2 if line.word == "string" else 3)
    if len(words) < 2:
        raise line.mistake(f"{line.word} has a number and a language")
    if line.word == "string":
        return STRING, line.read_number(words[0], 1), line.read_language(words[1]), string_body(line, (words + [""])[2])
    words += ["0", ""][len(words) - 2 :]
    return *[line.read_number(word, 1) for word in words[:2]], line.read_number(words[2], 2), line.read_bytes(words[3])


class Text:
    """A text as it was read: each entry with its lines, the serial block and its line."""

    def __init__(self, groups, serial, serial_line):
        configurations = [group[0] for group in groups if group[0].word == "configuration"]
        self.groups, self.entries = groups, [entry_of(group, configurations) for group in groups]
        self.serial, self.serial_line = serial, serial_line

    def line_at(self, entry, at):
        """The line of an entry that a byte of its body comes from."""
        group = self.groups[entry]
        for line in group if group[0].word == "configuration" else []:
            if at < line.length():
                return line
            at -= line.length()
        return group[0]

    def device_line(self):
        return next((group[0] for group, entry in zip(self.groups, self.entries) if entry[0] == DEVICE), None)


def read_text(texts):
    return text_of_lines(read_lines(texts))


def text_of_lines(lines):
    groups, serial, serial_line = [], b"", None
    for line in lines:
        if line.word in ("interface", "endpoint", *RAW):
            if not groups or groups[-1][0].word != "configuration":
                raise line.mistake(f"before this {line.word} comes a configuration")
            groups[-1].append(line)
        elif line.word in ("device", "configuration", "languages", "string", "piece"):
            groups.append([line])
        elif line.word == "serial":
            serial, serial_line = string_body(line, line.rest), line
        else:
            raise line.mistake(f"{line.word} is none of device, configuration, interface, endpoint, bytes, languages, string, serial, piece")
    return Text(groups, serial, serial_line)


def read_entries(texts):
    """The entries of a text, each with its line, and the serial block."""
    text = read_text(texts)
    return [(group[0], entry) for group, entry in zip(text.groups, text.entries)], text.serial


def piece(entry):
    """Type, index, language, length, body."""
    kind, index, language, body = entry
    return bytes([kind, index]) + language.to_bytes(2, "little") + len(body).to_bytes(2, "little") + body


# ---- from a set to a text
def entries_of(data):
    """Type, index, language and body of each entry of a set."""
    count = data[2] if len(data) > 2 else 0
    if len(data) < 4 + 8 * count:
        raise Mistake(f"the set has {len(data)} bytes, and no room for the contents that it counts")
    for at in range(4, 4 + 8 * count, 8):
        language, offset, length = (int.from_bytes(data[k : k + 2], "little") for k in (at + 2, at + 4, at + 6))
        if offset + length > len(data):
            raise Mistake(f"the entry at byte {at} has its body beyond the set's end")
        yield data[at], data[at + 1], language, data[offset : offset + length]


def cut(body):
    """The descriptors of a body, by bLength; what does not lead on is the last."""
    at = 0
    while at < len(body):
        size = body[at] if 2 <= body[at] <= len(body) - at else len(body) - at
        yield body[at : at + size]
        at += size


def hexadecimal(data):
    return data.hex(" ").upper()


def value_text(word, name, size, value, in_words):
    """A field's value, as a line has it."""
    number = f"0x{value:0{2 * size}X}" if IN_HEXADECIMAL.match(name) else f"{value}"
    return in_words and value_word(word, name, value) or number


def descriptor_line(descriptor, counted=True, in_words=False):
    """A descriptor by its fields: without those that are 0 unnamed too, but for an interface's number; with the counted ones or without."""
    word = WORDS.get(descriptor[1]) if len(descriptor) > 1 and descriptor[0] == len(descriptor) else None
    fields = FIELDS[word][1] if word else []
    end = 2 + sum(size for _, size, _ in fields)
    if not word or len(descriptor) < end:
        return ("bytes " if descriptor and descriptor[0] == len(descriptor) else "bytes! ") + hexadecimal(descriptor)
    words, at = [word], 2
    for name, size, default in fields:
        value = int.from_bytes(descriptor[at : at + size], "little")
        at += size
        if (counted if default is None else (value, default) != (0, 0) or name == "bInterfaceNumber"):
            words.append(f"{name} {value_text(word, name, size, value, in_words)}")
    return " ".join(words + (["more " + hexadecimal(descriptor[end:])] if descriptor[end:] else []))


def quoted(text):
    """A text as a line has it: in quotation marks where it would not be read as it stands."""
    if text.isprintable() and text == text.strip() and not re.search(r'^"|(^|\s)#', text):
        return text
    return json.dumps(text).replace("#", "\\u0023")


def string_text(body):
    return quoted(body[2:].decode("utf-16-le", "surrogatepass"))


def language_text(number, in_words):
    return language_word(number) if in_words else f"0x{number:04X}"


def candidates(entry, in_words):
    """Lines that may say an entry, the most readable first."""
    kind, index, language, body = entry
    if kind == STRING and len(body) % 2 == 0:
        if index == 0:
            yield [" ".join(["languages"] + [language_text(int.from_bytes(body[at : at + 2], "little"), in_words) for at in range(2, len(body), 2)])]
        yield [f"string {index} {language_text(language, in_words)} {string_text(body)}"]
    if kind in (DEVICE, CONFIGURATION):
        for counted in (False, True):
            yield [descriptor_line(descriptor, counted, in_words) for descriptor in cut(body)]


def lines_of(entry, configurations, in_words):
    """The first lines that are read as this entry behind so many configurations; else its bytes."""
    for texts in candidates(entry, in_words):
        try:
            if [read for _, read in read_entries(["configuration"] * configurations + texts)[0][configurations:]] == [entry]:
                return texts
        except Mistake:
            pass
    return [f"piece {entry[0]} {entry[1]} 0x{entry[2]:04X} {hexadecimal(entry[3])}"]


def serial_lines(serial):
    if not serial:
        return []
    if len(serial) % 2 or list(serial[:2]) != [len(serial), STRING]:
        raise Mistake("the serial block is no string, and no text says it")
    return ["serial " + string_text(serial)]


def text_of(data, serial, in_words=False):
    """The text of a set and its serial block: what is read from it are the set's entries, in the set's order. In words: `bulk`, `en-US` for numbers."""
    entries, configurations, lines = list(entries_of(data)), 0, {}
    for at, entry in sorted(enumerate(entries), key=lambda pair: pair[1][0] != CONFIGURATION):
        lines[at] = lines_of(entry, configurations, in_words)
        configurations += lines[at][0].startswith("configuration")
    kinds = [None] + [entry[0] for entry in entries]
    texts = [text for at in range(len(entries)) for text in [""] * (kinds[at + 1] == CONFIGURATION or kinds[at + 1] != kinds[at]) + lines[at]]
    return "\n".join(texts + serial_lines(serial)).lstrip("\n") + "\n"
