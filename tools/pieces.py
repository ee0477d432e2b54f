"""Descriptors and sets by hand, for the scripts that make some."""

DEVICE, CONFIGURATION, STRING, INTERFACE, ENDPOINT, STORE = 1, 2, 3, 4, 5, 15
GERMAN, ENGLISH = 0x0407, 0x0409
# the bench set
S = bytes.fromhex(
    "3F 00 02 00 01 00 00 00 14 00 12 00 02 00 00 00 26 00 19 00"
    "12 01 00 02 FF 00 00 08 34 12 78 56 00 01 00 00 00 01"
    "09 02 19 00 01 01 00 80 32 09 04 00 00 01 FF 00 00 00 07 05 81 03 08 00 0A"
)
S_DEVICE, S_CONFIGURATION = S[20:38], S[38:]


def word(number):
    return number.to_bytes(2, "little")


def interface(number, alternate=0, endpoints=0, string=0):
    return bytes([9, INTERFACE, number, alternate, endpoints, 0xFF, 0, 0, string])


def endpoint(address, attributes=3, size=8, interval=10):
    return bytes([7, ENDPOINT, address, attributes]) + word(size) + bytes([interval])


def configuration(*descriptors, value=1, interfaces=1, string=0, attributes=0x80, power=50):
    body = b"".join(descriptors)
    return bytes([9, CONFIGURATION]) + word(9 + len(body)) + bytes([interfaces, value, string, attributes, power]) + body


def string(text):
    body = text.encode("utf-16-le")
    return bytes([2 + len(body), STRING]) + body


def languages(*numbers):
    return bytes([2 + 2 * len(numbers), STRING]) + b"".join(map(word, numbers))


def a_set(*entries):
    """Entries are (type, index, language, body)."""
    at = 4 + 8 * len(entries)
    contents, bodies = b"", b""
    for kind, index, language, body in entries:
        contents += bytes([kind, index]) + word(language) + word(at + len(bodies)) + word(len(body))
        bodies += body
    return word(at + len(bodies)) + bytes([len(entries) % 256, 0]) + contents + bodies
