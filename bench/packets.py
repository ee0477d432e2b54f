"""Control transfers packet by packet: a script's words for them, the peripheral as the pipe's orders leave it, and what is told of each step."""
import collections, re

from events import REQUESTS, Words, read_event
from served import BUS_RESET, SETUP
from text import Line, hexadecimal
from words import EXPECTED, count_words, data_phrases, left_lines, left_phrases, number_words, outcome_word, read_expected

PIPE_LENGTH = 16
IDLE = bytes(PIPE_LENGTH)

# The pipe's events, orders and stages by their numbers in include/heideklonk.h.
PIPE_SETUP, TAKEN, RECEIVED, RESET, REPLY, ROOM, ACCEPT, REFUSE = range(8)
NOTHING, SEND, AWAIT, RECEIVE, STALL, ASK = range(6)
ORDERS = ["nothing", "send", "await", "receive", "stall", "ask"]
STAGES = ["idle", "asking about a setup", "data in", "status out", "data out", "asking about its bytes", "status in", "stalled"]
DATA_IN, DATA_OUT = 2, 4
BLOCKS = ["the answer's bytes", "the set", "the serial block", "the application's reply"]

# The words of a script, what each is told with (a number, bytes or nothing), and the pipe's event; the host's two go by what the peripheral waits for.
HOST = {"in": (None, TAKEN), "out": (int, RECEIVED)}
TOLD = {"taken": (None, TAKEN), "received": (int, RECEIVED), "reply": (bytes, REPLY), "room": (int, ROOM), "accept": (None, ACCEPT), "refuse": (None, REFUSE)}
WORDS = {**HOST, **TOLD}


class Peripheral:
    """Endpoint zero as the orders have left it: what it hands over, and what it is ready for."""

    def __init__(self):
        self.stalled, self.packet, self.room, self.awaits_status = False, None, None, False

    def answer(self, word):
        """What the host's token gets, before the pipe hears of it."""
        if self.stalled:
            return "STALL"
        ready = self.packet is not None if word == "in" else self.room is not None or self.awaits_status
        return "ACK" if ready else "NAK"

    def obey(self, heard):
        if heard.order == SEND:
            self.packet = heard.data
            self.awaits_status = heard.stage() == DATA_IN
        elif heard.order == AWAIT:
            self.awaits_status = True
        elif heard.order == RECEIVE:
            self.room = heard.room
        elif heard.order == STALL:
            self.__init__()
            self.stalled = True


class PacketCall:
    """A line that goes packet by packet: a setup or a reset, a token of the host's, or what the peripheral or the application tells."""

    def __init__(self, line):
        text, arrow, expected = line.text.partition("=>")
        self.line = line = Line(line.number, text.strip())
        self.expected = read_expected(line, expected, EXPECTED_OF_PACKETS) if arrow else []
        self.value, self.setup, self.reply = 0, b"", None
        if line.word in WORDS:
            self.read(line)
            return
        kind, carried = read_event(line)
        self.event = {SETUP: PIPE_SETUP, BUS_RESET: RESET}[kind]
        self.setup = carried if kind == SETUP else b""
        self.value = carried[0] if kind == BUS_RESET and carried else 0

    def read(self, line):
        takes, self.event = WORDS[line.word]
        if takes is bytes:
            self.reply = line.read_bytes(line.rest)
            return
        words = Words(line, line.rest)
        if takes is int:
            self.value = words.number("a number of bytes", 2)
        if words.left:
            raise line.mistake(f"{' '.join(words.left)} is too much")


class Lend:
    """`pipe`: from here on control transfers go packet by packet; with bytes behind it, from this pipe record."""

    def __init__(self, line):
        self.line, self.data = line, line.read_bytes(line.rest) if line.rest else IDLE


def goes_by_packets(line):
    """Whether a line is told to the pipe: its own words, a setup or a reset."""
    return line.word in WORDS or line.word in REQUESTS or line.word in ("setup", "reset")


def stage_words(pipe):
    stage = pipe[0] if len(pipe) == PIPE_LENGTH else 255
    return STAGES[stage] if stage < len(STAGES) else "no stage"


def pipe_words(pipe):
    """The pipe record as a person reads it."""
    if len(pipe) != PIPE_LENGTH:
        return "no transfer"
    place, length, asked, moved = [int.from_bytes(pipe[at : at + 2], "little") for at in (2, 4, 6, 8)]
    block = BLOCKS[pipe[1]] if pipe[1] < len(BLOCKS) else f"block {pipe[1]}"
    details = {DATA_IN: f", packet {moved} of {count_words(length, 'byte')} of {block} at byte {place}", DATA_OUT: f", {moved} of {count_words(asked, 'byte')}"}
    return stage_words(pipe) + details.get(pipe[0], "")


def pipe_phrases(before, pipe):
    return [f"pipe {stage_words(pipe)}", "pipe unchanged" if pipe == before else "pipe changed"]


class Heard(collections.namedtuple("Heard", "number order room data place pipe_before pipe before image")):
    """What an event of the pipe gave: its number and order, the packet or the room, and both records before and after."""

    def stage(self):
        return self.pipe[0] if len(self.pipe) == PIPE_LENGTH else None

    def phrases(self):
        room = [f"room {self.room}"] if self.order == RECEIVE else []
        orders = [str(self.number), outcome_word(self.number), f"order {ORDERS[self.order]}", *room, *data_phrases(self.data)]
        return [*orders, *pipe_phrases(self.pipe_before, self.pipe), *left_phrases(self.before, self.image)]

    def lines(self):
        yield f"answer  {number_words(self.number)}"
        yield f"order   {order_words(self)}"
        if self.data:
            yield f"        {hexadecimal(self.data)}"
        if self.pipe != self.pipe_before:
            yield f"pipe    {pipe_words(self.pipe)}"
            yield f"        {hexadecimal(self.pipe)}"
        yield from left_lines(self.before, self.image)


def order_words(heard):
    """The order, with the packet's length and place, or the room."""
    sent, room = f" {count_words(len(heard.data), 'byte')}{heard.place}", f" at most {count_words(heard.room, 'byte')}"
    return ORDERS[heard.order] + {SEND: sent, RECEIVE: room}.get(heard.order, "")


# What may stand behind => in a line that goes packet by packet.
PATTERNS = [f"order ({'|'.join(ORDERS)})", r"room \d+", f"pipe ({'|'.join(STAGES)}|unchanged|changed)", r"host gets (ACK|NAK|STALL|[\d,]+ bytes?)"]
EXPECTED_OF_PACKETS = re.compile("|".join(PATTERNS) + "|" + EXPECTED.pattern)


class Transfers:
    """The pipe record, what the application lends, and endpoint zero: each step is told in words and in bytes."""

    def __init__(self, library, pipe):
        self.library, self.pipe, self.reply, self.peripheral = library, pipe, b"", Peripheral()

    def power_on(self):
        self.__init__(self.library, IDLE)

    def play(self, call, image):
        """Prints what comes of a line; gives the phrases that hold, and the record that it leaves."""
        host, taken, heard = self.step(call, image)
        got = [f"host gets {host}"] if host else []
        if taken is not None:
            got.append(f"host gets {count_words(len(taken), 'byte')}")
        if got:
            print(f"    {got[-1].replace(' ', '    ', 1)}")
        if taken:
            print(f"            {hexadecimal(taken)}")
        if not heard:
            return [*got, *data_phrases(b""), *pipe_phrases(self.pipe, self.pipe), *left_phrases(image, image)], image
        for text in heard.lines():
            print(f"    {text}")
        return got + heard.phrases(), heard.image

    def step(self, call, image):
        """What the host's token gets, the packet that it took, and what the pipe gave, or nothing where it did not hear of it."""
        if call.line.word not in HOST:
            return None, None, self.hear(call, image)
        host, taken = self.peripheral.answer(call.line.word), None
        if host != "ACK":
            return host, None, None
        if call.line.word == "in":
            taken, self.peripheral.packet = self.peripheral.packet, None
        else:
            self.peripheral.room, self.peripheral.awaits_status = None, False
        return host, taken, self.hear(call, image)

    def hear(self, call, image):
        if call.event in (PIPE_SETUP, RESET):
            self.peripheral, self.reply = Peripheral(), b""
        if call.reply is not None:
            self.reply = call.reply
        heard = self.library.hear(call.event, call.value, image, self.pipe, self.reply, call.setup)
        self.pipe = heard.pipe
        self.peripheral.obey(heard)
        return heard
