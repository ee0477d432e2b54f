"""Object files and archives (ELF, 32 and 64 bits wide, low byte first): functions, what they need and call, and how long their code is."""
import struct
from collections import namedtuple

Section = namedtuple("Section", "name kind flags offset size link info each")
Symbol = namedtuple("Symbol", "name section size bind kind")

ALLOCATED, WRITABLE, FUNCTION, LOCAL = 2, 1, 2, 0
SYMBOLS, RELOCATIONS = 2, (4, 9)


def members(path):
    """The object files of an archive."""
    with open(path, "rb") as file:
        held = file.read()
    at = 8
    while at < len(held):
        name, size = held[at : at + 16].decode(), int(held[at + 48 : at + 58])
        content = held[at + 60 : at + 60 + size]
        if content[:4] == b"\x7fELF":
            yield name.strip().rstrip("/"), Object(content)
        at += 60 + size + size % 2


class Object:
    def __init__(self, held):
        self.held, self.wide = held, held[4] == 2
        start, = struct.unpack_from("<Q" if self.wide else "<I", held, 40 if self.wide else 32)
        count, names = struct.unpack_from("<HH", held, 60 if self.wide else 48)
        form = "<IIQQQQIIQQ" if self.wide else "<10I"
        rows = [struct.unpack_from(form, held, start + at * struct.calcsize(form)) for at in range(count)]
        self.sections = [Section(self.text(rows[names][4], row[0]), row[1], row[2], *row[4:8], row[9]) for row in rows]
        self.symbols = [symbol for section in self.sections if section.kind == SYMBOLS for symbol in self.symbols_of(section)]

    def text(self, table, at):
        start = table + at
        return self.held[start : self.held.index(b"\0", start)].decode()

    def symbols_of(self, section):
        form = "<IBBHQQ" if self.wide else "<IIIBBH"
        for at in range(section.offset, section.offset + section.size, section.each):
            row = struct.unpack_from(form, self.held, at)
            name, info, place, size = (row[0], row[1], row[3], row[5]) if self.wide else (row[0], row[3], row[5], row[2])
            yield Symbol(self.text(self.sections[section.link].offset, name), place, size, info >> 4, info & 15)

    def functions(self):
        return [symbol for symbol in self.symbols if symbol.kind == FUNCTION and symbol.section]

    def exports(self):
        return {symbol.name for symbol in self.functions() if symbol.bind != LOCAL}

    def needs(self):
        return {symbol.name for symbol in self.symbols if symbol.name and not symbol.section}

    def size(self, writable=False):
        """Bytes in the board's memory that are only read, or those that are written."""
        return sum(section.size for section in self.sections if section.flags & ALLOCATED and bool(section.flags & WRITABLE) == writable)

    def calls(self):
        """Function -> the functions that its code refers to. Each function stands in a section of its own."""
        at = {symbol.section: symbol.name for symbol in self.functions()}
        found = {name: set() for name in at.values()}
        for section in self.sections:
            if section.kind in RELOCATIONS and section.info in at:
                for symbol in self.referred(section):
                    name = symbol.name if not symbol.section else at.get(symbol.section)
                    if name and name != at[section.info] or symbol.kind == FUNCTION:
                        found[at[section.info]].add(name)
        return found

    def referred(self, section):
        word, shift = ("<Q", 32) if self.wide else ("<I", 8)
        for at in range(section.offset, section.offset + section.size, section.each):
            info, = struct.unpack_from(word, self.held, at + (8 if self.wide else 4))
            yield self.symbols[info >> shift]
