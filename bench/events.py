"""The events of a script: the words of each, and what is carried to the library."""
from served import BUS_RESET, HALT, PACKET_PASSED, POWER, RESUME, SETUP, STATUS_END, SUSPEND, WAKE

# The events other than a setup: the words, the event's number, and what follows. NOTHING, or words that stand for a number (a number can always be
# given). A new event is a line here, and its operation in tools/served.py.
NOTHING, NUMBER = None, {}
EVENTS = {
    "status end": (STATUS_END, NOTHING),
    "reset": (BUS_RESET, NOTHING),
    "reset to": (BUS_RESET, {"full": 0, "high": 1}),
    "halt": (HALT, NUMBER),
    "packet passed": (PACKET_PASSED, NUMBER),
    "power": (POWER, {"bus": 0, "own": 1}),
    "suspend": (SUSPEND, NOTHING),
    "resume": (RESUME, NOTHING),
    "wake": (WAKE, NOTHING),
}

# The requests of chapter 9: bmRequestType, bRequest, wLength, and what the words behind the name say, in order.
REQUESTS = {
    "GET_STATUS": (0x80, 0, 2, ["recipient"]),
    "CLEAR_FEATURE": (0x00, 1, 0, ["feature", "recipient"]),
    "SET_FEATURE": (0x00, 3, 0, ["feature", "recipient"]),
    "SET_ADDRESS": (0x00, 5, 0, ["wValue"]),
    "GET_DESCRIPTOR": (0x80, 6, 255, ["descriptor"]),
    "SET_DESCRIPTOR": (0x00, 7, 0, ["descriptor"]),
    "GET_CONFIGURATION": (0x80, 8, 1, []),
    "SET_CONFIGURATION": (0x00, 9, 0, ["wValue"]),
    "GET_INTERFACE": (0x81, 10, 1, ["wIndex"]),
    "SET_INTERFACE": (0x01, 11, 0, ["wIndex", "wValue"]),
    "SYNCH_FRAME": (0x82, 12, 2, ["wIndex"]),
}
SIZES = {"bmRequestType": 1, "bRequest": 1, "wValue": 2, "wIndex": 2, "wLength": 2}
RECIPIENTS = ["device", "interface", "endpoint"]
FEATURES = {"ENDPOINT_HALT": 0, "DEVICE_REMOTE_WAKEUP": 1, "TEST_MODE": 2}
DESCRIPTORS = ["", "device", "configuration", "string", "interface", "endpoint", "device_qualifier", "other_speed_configuration", "interface_power"]


class Words:
    """The words of a line that are still to be read."""

    def __init__(self, line, text):
        self.line, self.left = line, text.split()

    def next(self, wanted):
        if not self.left:
            raise self.line.mistake(f"here {wanted} is missing")
        return self.left.pop(0)

    def number(self, wanted, size, words={}):
        word = self.next(wanted)
        return words[word] if word in words else self.line.read_number(word, size)

    def has_number(self):
        return bool(self.left) and self.left[0][0].isdigit()


def read_recipient(words, fields):
    word = words.next("device, interface or endpoint")
    if word not in RECIPIENTS:
        raise words.line.mistake(f"{word} is none of {', '.join(RECIPIENTS)}")
    fields["bmRequestType"] += RECIPIENTS.index(word)
    if word != "device":
        fields["wIndex"] = words.number(f"the {word}'s number", 2)


def read_descriptor(words, fields):
    """A type by its name or its number, then the index, and for a string the language."""
    word = words.next("a descriptor's type")
    kind = DESCRIPTORS.index(word) if word in DESCRIPTORS else words.line.read_number(word, 1)
    fields["wValue"] = kind * 256 + (words.number("an index", 1) if words.has_number() else 0)
    if words.has_number():
        fields["wIndex"] = words.number("a language", 2)


def read_request(line):
    """The eight bytes of a request: the words behind its name, then any field by its name."""
    kind, code, length, places = REQUESTS[line.word]
    fields = {"bmRequestType": kind, "bRequest": code, "wValue": 0, "wIndex": 0, "wLength": length}
    words = Words(line, line.rest)
    for place in places:
        if words.left and words.left[0] in SIZES:
            break
        if place == "recipient":
            read_recipient(words, fields)
        elif place == "descriptor":
            read_descriptor(words, fields)
        elif place == "feature":
            fields["wValue"] = words.number("a feature", 2, FEATURES)
        else:
            fields[place] = words.number(place, 2)
    while words.left:
        name = words.next("a field")
        if name not in SIZES:
            raise line.mistake(f"{name} is no field: {', '.join(SIZES)}")
        fields[name] = words.number(f"the value of {name}", SIZES[name])
    return b"".join(fields[name].to_bytes(size, "little") for name, size in SIZES.items())


def read_event(line):
    """The event's number and what it carries."""
    if line.word in REQUESTS:
        return SETUP, read_request(line)
    if line.word == "setup":
        return SETUP, line.read_bytes(line.rest)
    for name, (kind, values) in EVENTS.items():
        if line.text == name and values is NOTHING:
            return kind, b""
        if f"{line.text} ".startswith(f"{name} ") and values is not NOTHING:
            words = Words(line, line.text[len(name) :])
            carried = bytes([words.number("a number", 1, values)])
            if words.left:
                raise line.mistake(f"{' '.join(words.left)} is too much")
            return kind, carried
    raise line.mistake(f"{line.text} is no event: {', '.join(EVENTS)}, setup, {', '.join(REQUESTS)}")
