"""A script as it is read: its steps, each with its line; and the lines of several drivers that are tried in orders."""
import os, re

from asking import LaidOut
from events import Words, read_event
from lent import SUPER_SET, TWO
from packets import Lend, PacketCall, WORDS, goes_by_packets
from text import Line, Mistake, read_entries, read_lines, read_text, text_of_lines
from words import EXPECTED_OF_ORDERS, count_words, read_expected


def read_file(path):
    with open(path, "rb") as file:
        return file.read()


class Lending:
    """A set, as its file has it or of its text; or a serial block; or a record, or some bytes of one of them."""

    def __init__(self, line, folder):
        self.line, self.block, self.text, self.at, self.data = line, line.word, None, None, b""
        found = re.fullmatch(r"(\d+): *(.*)", line.rest)
        if line.word == "high" and not found:
            raise line.mistake("`high 47: 00` changes bytes of a pair's high-speed set: `pair FULL HIGH` lends both")
        if found:
            self.at, self.data = int(found[1]), line.read_bytes(found[2])
        elif line.word == "record":
            self.data = line.read_bytes(line.rest)
        elif (line.word, line.rest) != ("serial", "none"):
            self.read(os.path.join(folder, line.rest))

    def read(self, path):
        try:
            if self.block == "set" and path.endswith(".txt"):
                with open(path, encoding="utf-8-sig") as file:
                    self.text = read_entries(file)
            else:
                self.data = read_file(path)
        except OSError as error:
            raise self.line.mistake(f"{path}: {error.strerror}") from None
        except (Mistake, UnicodeDecodeError) as mistake:
            raise self.line.mistake(f"{path}, {mistake}") from None

    def changed(self, before):
        """The block that is lent from now on."""
        if self.at is None:
            return self.data
        if self.at + len(self.data) > len(before):
            raise Mistake(f"the {self.block} has only {count_words(len(before), 'byte')}")
        return before[: self.at] + self.data + before[self.at + len(self.data) :]


class LendingOfKind:
    """`pair FULL HIGH`, or `super SET`: files, or texts, which bring their serial block."""

    def __init__(self, line, folder):
        self.line, self.kind = line, {"pair": TWO, "super": SUPER_SET}[line.word]
        names, count = line.rest.split(), 2 if line.word == "pair" else 1
        if len(names) != count:
            raise line.mistake("a pair is two files: `pair FULL HIGH`" if count == 2 else "a SuperSpeed set is one file: `super SET`")
        self.sets, self.serial = self.read([os.path.join(folder, name) for name in names])

    def read(self, paths):
        """The sets; the serial block, or None where files have none of their own."""
        try:
            if not all(path.endswith(".txt") for path in paths):
                return tuple(map(read_file, paths)), None
            lent = LaidOut([self.read_text(path) for path in paths], self.kind).lent
            return lent.sets, lent.serial
        except OSError as error:
            raise self.line.mistake(f"{error.filename}: {error.strerror}") from None
        except (Mistake, UnicodeDecodeError, OverflowError) as mistake:
            raise self.line.mistake(mistake) from None

    def read_text(self, path):
        with open(path, encoding="utf-8-sig") as file:
            try:
                return read_text(file)
            except Mistake as mistake:
                raise Mistake(f"{path}, {mistake}") from None


class Ports:
    """`ports N`: a row of N records from here on, each with a serial block of its own; `port K`: the lines from here on are that port's."""

    def __init__(self, line):
        self.line, words = line, Words(line, line.rest)
        self.number = words.number("a number of ports" if line.word == "ports" else "a port's number", 1)
        if words.left:
            raise line.mistake(f"{' '.join(words.left)} is too much")
        if line.word == "ports" and self.number == 0:
            raise line.mistake("a row has one port or more")


class LentHere(Lending):
    """A set whose text stands in the script, between `set here` and `end`."""

    def __init__(self, line, lines):
        self.line, self.block, self.at, self.data = line, "set", None, b""
        text = text_of_lines(until_end(line, lines))
        self.text = [(group[0], entry) for group, entry in zip(text.groups, text.entries)], text.serial


def until_end(line, lines):
    for inner in lines:
        if inner.text == "end":
            return
        yield inner
    raise line.mistake("this set has no `end`")


class Call:
    """`open` or an event, and what is expected of the answer."""

    def __init__(self, line):
        text, arrow, expected = line.text.partition("=>")
        self.line = Line(line.number, text.strip())
        self.event = None if self.line.text == "open" else read_event(self.line)
        self.expected = read_expected(line, expected) if arrow else []

    def setup(self):
        """The bytes of a setup, or nothing."""
        return self.event[1] if self.event and self.event[0] == 0 else b""


class Orders:
    """The lines of several drivers: each driver's in their order, the drivers' in every order among them or in some that are drawn."""

    def __init__(self, line):
        text, arrow, expected = line.text.partition("=>")
        found = re.fullmatch(r"orders (?:every|drawn ([1-9]\d*)(?: seed (\d+))?)", " ".join(text.split()))
        if not found:
            raise line.mistake("orders are `orders every`, `orders drawn 1000` or `orders drawn 1000 seed 7`")
        self.line, self.drivers = line, []
        self.drawn, self.seed = int(found[1] or 0), int(found[2] or 1)
        self.expected = read_expected(line, expected, EXPECTED_OF_ORDERS) if arrow else ["1 end", "answers alike"]

    def add(self, line):
        if line.word == "driver":
            self.drivers.append((line.rest, []))
        elif line.word in ("set", "pair", "high", "super", "ports", "port", "serial", "record", "pipe", "orders", *WORDS) or not self.drivers:
            raise line.mistake("among orders, lines are `driver NAME`, events, and `end`")
        else:
            self.drivers[-1][1].append(Call(line))


def read_script(path):
    """The steps of a script; an error names its line."""
    steps, orders, by_packets = [], None, False
    with open(path, encoding="utf-8-sig") as file:
        lines = read_lines(file)
        for line in lines:
            if line.text == "end" and orders:
                orders = None
            elif orders:
                orders.add(line)
            elif by_packets and (line.word == "orders" or line.text.startswith("status end")):
                raise line.mistake(f"`{line.word}` is for transfers that are not played packet by packet")
            elif line.word == "orders":
                steps.append(orders := Orders(line))
            elif line.text == "set here":
                steps.append(LentHere(line, lines))
            elif line.word in ("set", "high", "serial", "record"):
                steps.append(Lending(line, os.path.dirname(path)))
            elif line.word in ("pair", "super"):
                steps.append(LendingOfKind(line, os.path.dirname(path)))
            elif line.word in ("ports", "port"):
                steps.append(Ports(line))
            elif line.word == "pipe":
                by_packets = True
                steps.append(Lend(line))
            elif line.word in WORDS and not by_packets:
                raise line.mistake(f"`{line.word}` is for transfers packet by packet: say `pipe` before")
            elif by_packets and goes_by_packets(line):
                steps.append(PacketCall(line))
            else:
                steps.append(Call(line))
    if orders:
        raise orders.line.mistake("these orders have no `end`")
    return steps
