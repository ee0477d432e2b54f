"""Control transfers out of what was recorded on a bus: usbmon's text, a pcap or pcapng file of it, or a list `SETUP hex -> DATA hex`."""
import collections, re, struct

from text import Mistake
from transfers import BROKEN, ENDED, SET_ADDRESS, STALLED

# A control transfer: where, its setup bytes, how it went, what came back, and how many bytes that were on the bus.
Seen = collections.namedtuple("Seen", "bus device setup how data length")
# Half of one: the host's request ('S'), or how it ended ('C').
Half = collections.namedtuple("Half", "tag kind bus device setup status data length")

STALL = -32
# Link types of libpcap that hold usbmon's packets, with the length of their head; USBPcap's, which is not read.
HEADS, USBPCAP = {189: 48, 220: 64}, 249
CONTROL = 2


def how_it_went(status):
    return ENDED if status == 0 else STALLED if status == STALL else BROKEN


def joined(halves):
    """Each request with its end; what began before the recording, or did not end in it, is left out."""
    under_way = {}
    for half in halves:
        key = half.tag, half.bus, half.device
        if half.kind == "S" and half.setup:
            under_way[key] = half.setup
        elif half.kind == "C" and key in under_way:
            setup = under_way.pop(key)
            answered = setup[0] & 0x80
            yield Seen(half.bus, half.device, setup, how_it_went(half.status), half.data if answered else b"", half.length if answered else 0)


# ---- usbmon's text
MON = re.compile(r"(\S+)\s+\d+\s+([SCE])\s+C([io]):(?:(\d+):)?(\d+):0+\s+(.*)")
SETUP = re.compile(r"s ([0-9a-f]{2}) ([0-9a-f]{2}) ([0-9a-f]{4}) ([0-9a-f]{4}) ([0-9a-f]{4})\s*(.*)")


def setup_bytes(words):
    kind, request, *fields = (int(word, 16) for word in words)
    return bytes([kind, request]) + b"".join(field.to_bytes(2, "little") for field in fields)


def text_half(line):
    """A line of usbmon's text, if it is about endpoint zero."""
    found = MON.match(line)
    if not found:
        return None
    tag, kind, _, bus, device, rest = found.groups()
    setup, status = b"", 0
    if of_setup := SETUP.match(rest):
        setup, rest = setup_bytes(of_setup.groups()[:5]), of_setup[6]
    else:
        word, _, rest = rest.partition(" ")
        status = int(word.split(":")[0])
    length, _, data = rest.partition(" ")
    shown = bytes.fromhex(data[1:]) if data.startswith("=") else b""
    return Half(tag, kind, int(bus or 0), int(device), setup, status, shown, int(length or 0))


def read_text(text):
    return joined(filter(None, map(text_half, text.splitlines())))


# ---- a list of transfers
LISTED = re.compile(r"SETUP ([0-9a-f]{16}) -> (?:DATA ?([0-9a-f]*)|(STALL)|ERROR (-?\d+))(?: *; (?:OUT [0-9a-f]+|len=(\d+) captured=\d+))?")


def read_list(text):
    for number, line in enumerate(text.splitlines(), 1):
        if line.startswith("#") or not line.strip():
            continue
        found = LISTED.fullmatch(line.strip())
        if not found:
            raise Mistake(f"line {number}: a transfer is `SETUP`, 16 digits, `->` and `DATA` with digits, or `STALL`")
        setup, data, stall, error, length = found.groups()
        shown = bytes.fromhex(data or "")
        yield Seen(0, 0, bytes.fromhex(setup), STALLED if stall else BROKEN if error else ENDED, shown, int(length or len(shown)))


# ---- pcap and pcapng
def packet_half(packet, head, order):
    """A packet of usbmon, if it is about endpoint zero."""
    if len(packet) < head:
        return None
    tag, kind, transfer, endpoint, device, bus, no_setup, _, _, _, status, length, kept = struct.unpack_from(order + "QBBBBHBBqiiII", packet)
    if transfer != CONTROL or endpoint & 0x7F:
        return None
    setup = packet[40:48] if chr(kind) == "S" and no_setup == 0 else b""
    return Half(tag, chr(kind), bus, device, setup, status, packet[head : head + kept], length)


def pcap_packets(data):
    """Each packet with its link type and its byte order."""
    order = {b"\xd4\xc3\xb2\xa1": "<", b"\x4d\x3c\xb2\xa1": "<", b"\xa1\xb2\xc3\xd4": ">", b"\xa1\xb2\x3c\x4d": ">"}[data[:4]]
    link, at = struct.unpack_from(order + "I", data, 20)[0] & 0xFFFF, 24
    while at + 16 <= len(data):
        size = struct.unpack_from(order + "I", data, at + 8)[0]
        yield link, order, data[at + 16 : at + 16 + size]
        at += 16 + size


def pcapng_packets(data):
    order, links, at = "<", [], 0
    while at + 12 <= len(data):
        if data[at : at + 4] == b"\x0a\x0d\x0d\x0a":
            order, links = ("<" if data[at + 8 : at + 12] == b"\x4d\x3c\x2b\x1a" else ">"), []
        kind, size = struct.unpack_from(order + "II", data, at)
        if kind == 1:
            links.append(struct.unpack_from(order + "H", data, at + 8)[0])
        elif kind == 6:
            interface, _, _, kept = struct.unpack_from(order + "IIII", data, at + 8)
            yield links[interface], order, data[at + 28 : at + 28 + kept]
        if size < 12:
            raise Mistake(f"the block at byte {at} has no length")
        at += size


def read_packets(packets):
    for link, order, packet in packets:
        if link == USBPCAP:
            raise Mistake("this is a recording of USBPcap (Windows), which is not read: record with usbmon on Linux")
        if link not in HEADS:
            raise Mistake(f"link type {link} is no recording of a USB bus (189 and 220 are)")
        half = packet_half(packet, HEADS[link], order)
        if half:
            yield half


def read_capture(data):
    """The control transfers of a recording, in their order."""
    try:
        if data[:4] == b"\x0a\x0d\x0d\x0a":
            return list(joined(read_packets(pcapng_packets(data))))
        if data[:4] in (b"\xd4\xc3\xb2\xa1", b"\xa1\xb2\xc3\xd4", b"\x4d\x3c\xb2\xa1", b"\xa1\xb2\x3c\x4d"):
            return list(joined(read_packets(pcap_packets(data))))
        text = data.decode("utf-8")
    except (struct.error, IndexError):
        raise Mistake("this recording breaks off within a block") from None
    except UnicodeDecodeError:
        raise Mistake("this is neither usbmon's text nor a pcap or pcapng file") from None
    return list(read_list(text) if re.search(r"^SETUP ", text, re.MULTILINE) else read_text(text))


def by_device(transfers):
    """The transfers of each device, by bus and number. What was asked of address 0 belongs to the device that got its address there."""
    devices, at_zero = {}, {}
    for seen in transfers:
        if seen.device == 0 and seen.bus:
            at_zero.setdefault(seen.bus, []).append(seen)
            if seen.setup.startswith(SET_ADDRESS) and seen.how == ENDED:
                devices[seen.bus, seen.setup[2]] = at_zero.pop(seen.bus)
        else:
            devices.setdefault((seen.bus, seen.device), []).append(seen)
    return devices
