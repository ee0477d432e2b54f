"""A small client of USB/IP: what Linux's vhci does, as far as a program can, over a socket."""
import socket, struct

VERSION, DEVICE_LIST, IMPORT = 0x0111, 0x8005, 0x8003
SUBMIT, UNLINK, SUBMITTED, UNLINKED = 1, 2, 3, 4
HEAD, DEVICE_ID, BUS_ID = 48, 0x00010001, b"1-1"
OUT, IN = 0, 1
SHORT_IS_AN_ERROR, EMPTY_PACKET_AT_THE_END = 0x0001, 0x0040
STALL, NO_SUCH_ENDPOINT, OVERFLOW, UNLINKED_STATUS, SHORT, INVALID, OUT_OF_MEMORY = -32, -71, -75, -104, -121, -22, -12
DEVICE_FIELDS = ">256s32sIIIHHHBBBBBB"


class CutOff(Exception):
    """The server has closed the connection."""


class Answer:
    def __init__(self, command, sequence, status, actual, data, packets):
        self.command, self.sequence, self.status, self.actual, self.data, self.packets = command, sequence, status, actual, data, packets

    def __repr__(self):
        return f"status {self.status}, {self.actual} bytes, {self.data[:32].hex(' ')}"


def operation(code, rest=b""):
    return struct.pack(">HHI", VERSION, code, 0) + rest


def head(command, sequence, direction, endpoint, device=DEVICE_ID):
    return struct.pack(">IIIII", command, sequence, device, direction, endpoint)


def setup_bytes(kind, code, value=0, index=0, length=0):
    return struct.pack("<BBHHH", kind, code, value, index, length)


class Client:
    """A connection; `plugged` after attach."""

    def __init__(self, port, timeout=5):
        self.socket = socket.create_connection(("127.0.0.1", port), timeout)
        self.socket.setsockopt(socket.IPPROTO_TCP, socket.TCP_NODELAY, 1)
        self.sequence, self.directions, self.early = 0, {}, {}

    def __enter__(self):
        return self

    def __exit__(self, *_):
        self.socket.close()

    def send(self, data):
        try:
            self.socket.sendall(data)
        except (ConnectionError, BrokenPipeError) as error:
            raise CutOff from error

    def receive(self, length):
        data = b""
        while len(data) < length:
            try:
                more = self.socket.recv(length - len(data))
            except ConnectionError as error:
                raise CutOff from error
            if not more:
                raise CutOff
            data += more
        return data

    # ---- before an import
    def read_device(self):
        fields = struct.unpack(DEVICE_FIELDS, self.receive(312))
        return (fields[0].rstrip(b"\0"), fields[1].rstrip(b"\0"), *fields[2:])

    def list_devices(self):
        self.send(operation(DEVICE_LIST))
        version, code, status, count = struct.unpack(">HHII", self.receive(12))
        assert (version, code, status) == (VERSION, DEVICE_LIST & 0x7FFF, 0)
        devices = []
        for _ in range(count):
            device = self.read_device()
            devices.append((device, [tuple(self.receive(4)) for _ in range(device[-1])]))
        return devices

    def attach(self, bus_id=BUS_ID):
        """The device, or the status with which it was refused."""
        self.send(operation(IMPORT, bus_id.ljust(32, b"\0")))
        version, code, status = struct.unpack(">HHI", self.receive(8))
        assert (version, code) == (VERSION, IMPORT & 0x7FFF)
        return self.read_device() if status == 0 else status

    # ---- behind an import
    def submit(self, endpoint, direction, data=b"", length=None, setup=bytes(8), flags=0, packets=None):
        """Sends a transfer, and gives its sequence number."""
        self.sequence += 1
        length = len(data) if length is None else length
        count = 0 if packets is None else len(packets)
        message = head(SUBMIT, self.sequence, direction, endpoint) + struct.pack(">IIIII", flags, length, 0, count, 0) + setup
        message += data if direction == OUT else b""
        at = 0
        for packet in packets or ():
            message += struct.pack(">IIII", at, packet, 0, 0)
            at += packet
        self.directions[self.sequence] = direction
        self.send(message)
        return self.sequence

    def unlink(self, sequence):
        self.sequence += 1
        self.send(head(UNLINK, self.sequence, 0, 0) + struct.pack(">I", sequence) + bytes(24))
        return self.wait(self.sequence)

    def read_answer(self):
        command, sequence, device, direction, endpoint, status, actual, _, count, _ = struct.unpack(">IIIIIiIIII", self.receive(40))
        assert self.receive(8) == bytes(8) and (device, direction, endpoint) == (0, 0, 0)
        if command == UNLINKED:
            return Answer(command, sequence, status, 0, b"", [])
        assert command == SUBMITTED
        data = self.receive(actual) if self.directions[sequence] == IN else b""
        packets = [struct.unpack(">IIIi", self.receive(16)) for _ in range(count if count != 0xFFFFFFFF else 0)]
        return Answer(command, sequence, status, actual, data, packets)

    def wait(self, sequence):
        while sequence not in self.early:
            answer = self.read_answer()
            assert answer.sequence not in self.early
            self.early[answer.sequence] = answer
        return self.early.pop(sequence)

    def is_quiet(self, seconds=0.05):
        """Nothing has come that was not asked for."""
        before = self.socket.gettimeout()
        self.socket.settimeout(seconds)
        try:
            return not self.early and not self.socket.recv(1, socket.MSG_PEEK)
        except (TimeoutError, BlockingIOError):
            return True
        finally:
            self.socket.settimeout(before)

    def control(self, kind, code, value=0, index=0, length=0, data=b"", flags=0):
        reads = kind & 0x80 and length > 0
        setup = setup_bytes(kind, code, value, index, len(data) or length)
        return self.wait(self.submit(0, IN if reads else OUT, data, length if reads else len(data), setup, flags))

    def give(self, endpoint, data, flags=0):
        return self.wait(self.submit(endpoint & 15, OUT, data, flags=flags))

    def take(self, endpoint, length, flags=0):
        return self.wait(self.submit(endpoint & 15, IN, length=length, flags=flags))
