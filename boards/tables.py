"""Tables that a function builds of constants before its first branch become constants of the module: they then take no stack and no code to build.

The lines up to the first branch are followed one after the other; of each variable the bytes are kept that are constants by then. Where a copy takes nothing but
such bytes, it takes them from a constant instead. What is lent to a function, or whose address is stored, is no longer known.
"""
import re

from functions import callee_and_values
from module import COPY, FILL, FORMS, MARKS, WIDTHS

LEAST = 32
STEP = re.compile(r"(%\w+) = getelementptr (?:inbounds |nuw )*i8, ptr (%\w+), i(?:32|64) (\S+)$")


class Known:
    """The bytes of a function's variables that are known to be constants, line by line."""

    def __init__(self):
        self.places, self.bytes = {}, {}

    def forget(self, word):
        if word in self.places:
            self.bytes.pop(self.places[word][0], None)

    def write(self, word, values):
        if word in self.places and self.places[word][0] in self.bytes:
            variable, offset = self.places[word]
            self.bytes[variable][offset : offset + len(values)] = values

    def read(self, word, length):
        variable, offset = self.places.get(word, (None, 0))
        return self.bytes.get(variable, [None] * (offset + length))[offset : offset + length]

    def line(self, line):
        """Follows a line; a copy's known bytes, if it has nothing else."""
        if found := FORMS["alloca"].match(line):
            self.places[found[1]] = (found[1], 0)
            self.bytes[found[1]] = [None] * int(found[2] or WIDTHS[found[3]])
        elif found := STEP.match(line):
            if found[2] in self.places and found[3].isdigit():
                variable, offset = self.places[found[2]]
                self.places[found[1]] = (variable, offset + int(found[3]))
            else:
                self.forget(found[2])
        elif found := FORMS["store"].match(line):
            self.store(*found.groups()[:3])
        elif found := FORMS["call"].match(line):
            return self.call(*callee_and_values(found))
        return None

    def store(self, kind, value, word):
        if kind == "ptr":
            self.forget(value)
        width = WIDTHS[kind]
        constant = int(value) % 256**width if re.match(r"-?\d+$", value) else None
        self.write(word, [None] * width if constant is None else list(constant.to_bytes(width, "little")))

    def call(self, callee, values):
        if callee == COPY:
            taken = self.read(values[1], int(values[2]))
            self.write(values[0], taken)
            return bytes(taken) if None not in taken else None
        if callee == FILL and values[1].isdigit():
            self.write(values[0], [int(values[1])] * int(values[2]))
        elif callee not in MARKS:
            for value in values:
                self.forget(value)
        return None


def with_tables(functions):
    """Changes the copies; gives the constants as text."""
    tables = {}
    for function in functions.values():
        known, lines = Known(), list(function.lines)
        for at, line in enumerate(lines):
            if line.startswith(("br ", "switch ", "ret ", "unreachable")):
                break
            table = known.line(line)
            if table and len(table) >= LEAST:
                name = tables.setdefault(table, f"@table.{len(tables)}")
                lines[at] = re.sub(r", ptr %\w+, i64", f", ptr {name}, i64", line)
        function.lines = lines
    return "".join(f'{name} = private unnamed_addr constant [{len(table)} x i8] c"{"".join(f"{chr(92)}{byte:02X}" for byte in table)}", align 4\n' for table, name in tables.items())
