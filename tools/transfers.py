"""Control transfers that were seen on a bus, and the set of the device that answered them."""
from pieces import CONFIGURATION, DEVICE, ENDPOINT, ENGLISH, INTERFACE, STRING, a_set, languages, string, word

ENDED, STALLED, BEFORE, BROKEN = range(4)
GET_STATUS, SET_WAKEUP, SET_ADDRESS, SET_CONFIGURATION, SET_INTERFACE = (
    bytes.fromhex(head) for head in ("80 00", "00 03 01 00", "00 05", "00 09", "01 0B")
)
# The largest wMaxPacketSize of full speed, by transfer type.
LARGEST = {1: 1023, 2: 64, 3: 64}


def number_at(data, at):
    return int.from_bytes(data[at : at + 2], "little")


def descriptors_of(transfers, kind):
    """The descriptors of a type that were recorded whole, by index and wIndex. A transfer is its setup bytes, how it went, and the answer."""
    for setup, how, data in transfers:
        if setup[:2] == b"\x80\x06" and setup[3] == kind and how == ENDED:
            if len(data) >= 4 - 2 * (kind == STRING) and len(data) == (number_at(data, 2) if kind == CONFIGURATION else data[0]):
                yield (setup[2], number_at(setup, 4)), data


def answers(transfers, request):
    return [(setup, data) for setup, how, data in transfers if setup.startswith(request) and how == ENDED]


def made_up_device(transfers):
    """For a device whose descriptors were not recorded: the highest string that was asked for is its serial number, if there is one."""
    serial = max((setup[2] for setup, _, _ in transfers if setup[:2] == b"\x80\x06" and setup[3] == STRING), default=0)
    return bytes.fromhex("12 01 00 02 FF 00 00 40 34 12 78 56 00 01 00 00") + bytes([serial, 1])


def made_up_configuration(transfers):
    """As many interfaces as SET_INTERFACE names, self-powered if GET_STATUS says so, and with wakeup."""
    count = 1 + max((number_at(setup, 4) for setup, _ in answers(transfers, SET_INTERFACE)), default=0)
    powered = any(data[0] & 1 for _, data in answers(transfers, GET_STATUS) if data)
    body = b"".join(bytes([9, INTERFACE, number, 0, 0, 0xFF, 0, 0, 0]) for number in range(count))
    return bytes([9, CONFIGURATION]) + word(9 + len(body)) + bytes([count, 1, 0, 0xE0 if powered else 0xA0, 50]) + body


def pieces(body):
    at = 0
    while at < len(body):
        yield at, body[at : at + body[at]]
        at += body[at]


def at_full_speed(body):
    """The body, with each wMaxPacketSize that is too large for full speed cut to the largest."""
    body = bytearray(body)
    for at, piece in pieces(bytes(body)):
        if piece[1] == ENDPOINT:
            body[at + 4 : at + 6] = word(min(number_at(piece, 4), LARGEST[piece[3] % 4]))
    return bytes(body)


def set_of(device, bodies, strings):
    """The set and the serial block. A string that is only referred to is made up."""
    serial = device[16]
    texts = {index: body for (index, _), body in strings.items() if index}
    references = {*device[14:17], *[body[6] for body in bodies], *[p[8] for body in bodies for _, p in pieces(body) if p[1] == INTERFACE]}
    for index in references - {0}:
        texts.setdefault(index, string(f"String {index}"))
    block = texts.pop(serial, b"")
    entries = [(DEVICE, 0, 0, device), *[(CONFIGURATION, i, 0, body) for i, body in enumerate(bodies)]]
    if texts or block:
        entries += [(STRING, 0, 0, strings.get((0, 0), languages(ENGLISH))), *[(STRING, i, ENGLISH, texts[i]) for i in sorted(texts)]]
    return a_set(*entries), block


def before(transfers, bodies):
    """What the host did before the recording began, as far as the recording shows it."""
    requests = [setup for setup, _, _ in transfers]
    if not answers(transfers, SET_ADDRESS):
        yield SET_ADDRESS + bytes([5, 0, 0, 0, 0, 0])
    if not answers(transfers, SET_CONFIGURATION):
        yield SET_CONFIGURATION + bytes([bodies[0][5], 0, 0, 0, 0, 0])
    for setup, data in answers(transfers, GET_STATUS)[:1]:
        if data and data[0] & 2 and not any(r.startswith(SET_WAKEUP) for r in requests[: requests.index(setup)]):
            yield SET_WAKEUP + bytes(4)
