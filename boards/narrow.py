"""The module's functions with lengths and indices of 32 bits and slots of 4 bytes, for processors whose pointers have 32 bits.

bounds.py says for each 64-bit value why 32 bits hold it, layout.py where everything lies then. What is left is to write each line anew; a line of another form
stops it. Flags that say "never above 2^64" stay only where the bound says the same of 2^32.
"""
import re

from functions import callee_and_values
from layout import HALF
from module import COPY, FILL, SLOT, WIDTHS, Unexpected

# A copy of at most so many bytes is made field by field: as one number of 64 bits, as the compiler would have it, nothing sees its fields any more.
MOST_FIELDS = 8


def shorter(text):
    """The type of 64 bits is the one of 32, names aside."""
    return re.sub(r'@"[^"]*"|@[\w.]+|\bi64\b', lambda found: "i32" if found[0] == "i64" else found[0], text)


class Narrowing:
    def __init__(self, layout, addresses):
        """addresses: the values of which only the low 32 bits are looked at, by function."""
        self.layout, self.addresses, self.copied = layout, addresses, 0

    def function(self, function):
        self.name, self.places = function.name, self.layout.all_places[function.name]
        function.head = shorter(function.head)
        made = [getattr(self, form, self.same)(line, found) for (_, form, found), line in zip(function.matches(), function.lines)]
        function.lines = [line for lines in made for line in lines.split("\n")]

    def same(self, line, found):
        return shorter(line)

    def alloca(self, line, found):
        word, length, kind, alignment = found.groups()
        block = self.places[word][0]
        self.layout.whole((block, int(length or 0)), 0, line)
        what = f"[{self.layout.moved(block, int(length))} x i8]" if length else shorter(kind)
        return f"{word} = alloca {what}, align {min(int(alignment), HALF)}"

    def step(self, line, found):
        word, base, index = found.groups()
        if index.isdigit():
            index = self.layout.length(self.places[base], int(index))
        flags = re.search(r"getelementptr ((?:inbounds |nuw )*)i8", line)[1]
        return f"{word} = getelementptr {flags}i8, ptr {base}, i32 {index}"

    def load(self, line, found):
        return re.sub(rf"align {SLOT}\b", f"align {HALF}", shorter(line))

    store = load

    def number(self, line, found):
        word, rest = line.split(" = ", 1)
        if one := re.match(r"(?:zext|trunc)(?: nneg| nuw| nsw)* (i32|i64) (\S+) to (i32|i64)$", rest):
            return f"{word} = add i32 {one[2]}, 0"
        if (self.name, word) in self.addresses:
            rest = re.sub(r" (?:nuw|nsw)\b", "", rest)
        return shorter(f"{word} = {rest}")

    def call(self, line, found):
        callee, values = callee_and_values(found)
        if callee not in (COPY, FILL):
            return shorter(line)
        place, length = self.places[values[0]], int(values[2])
        new = self.layout.length(place, length)
        if callee == COPY and self.layout.length(self.places[values[1]], length) != new:
            raise Unexpected(f"a copy between two layouts, in {self.name}: {line}")
        fields = self.layout.fields(place, length) if callee == COPY and new <= MOST_FIELDS else None
        if fields and fields == self.layout.fields(self.places[values[1]], length):
            return self.by_fields(values, fields)
        return line.replace(f"i64 {length},", f"i64 {new},")

    def by_fields(self, values, fields):
        """A short copy, field by field: everything is loaded before anything is stored, as if it overlapped."""
        loads, stores = [], []
        for offset, kind in fields:
            self.copied += 1
            name, kind, alignment = f"%copied{self.copied}", shorter(kind), min(WIDTHS[kind], HALF)
            for end, word in zip(("to", "from"), values):
                loads.append(f"{name}.{end} = getelementptr i8, ptr {word}, i32 {self.layout.length(self.places[word], offset)}")
            loads.append(f"{name} = load {kind}, ptr {name}.from, align {alignment}")
            stores.append(f"store {kind} {name}, ptr {name}.to, align {alignment}")
        return "\n".join(loads + stores)
