"""Where everything lies in memory once a pointer's slot and a 64-bit number take 4 bytes instead of 8.

The audit of module.py tells for every pointer which block it points into and at which offset, and which blocks are the same bytes or copies of each other. Here a
slot is 8 bytes of a block that are used as one pointer or one 64-bit number and never otherwise (but filled with zeros). A slot gives up its last 4 bytes, and what
lies behind it moves down. It stops where that would not be exact:

- a byte of a slot is used as something else, or a fill or a copy takes a part of a slot;
- two places that are the same bytes, or a copy, have their slots elsewhere;
- a pointer points into the middle of a slot;
- a computed index goes into or over memory that has slots.
"""
from collections import defaultdict

from module import FILL, MARKS, SLOT, WIDTHS, Audit, Memory, Unexpected

POINTER, WIDE = "pointer", "wide"
HALF = SLOT // 2


class Slots(Memory):
    """Every use of a byte: as what, and which byte of it. Zeros may lie over all of them."""

    def use(self, place, kind, line):
        block, offset = place
        self.reach(place, WIDTHS[kind])
        for at in range(WIDTHS[kind]):
            self.uses[block][offset + at].setdefault(({"ptr": POINTER, "i64": WIDE}.get(kind, kind), at), line)


class Layout(Audit):
    """judged=False refuses nothing, for tests that plant faults."""

    def __init__(self, text, judged=True):
        super().__init__(text)
        self.memory, self.judged = Slots(), judged
        self.filled, self.all_places, self.stepped = [], {}, []

    def run(self):
        for name, (parameters, lines) in self.functions.items():
            self.places = self.all_places[name] = {word: ((name, word), 0) for kind, word in parameters if kind == "ptr"}
            for line in lines:
                self.read(name, line)
        self.connect()
        self.memory.spread()
        self.slots = {block: self.slots_of(block, offsets) for block, offsets in self.memory.uses.items()}
        self.hold()
        return self

    def call(self, name, line, word, callee, words):
        if callee not in MARKS:
            super().call(name, line, word, callee, words)

    def step(self, name, line, word, base, index):
        super().step(name, line, word, base, index)
        self.stepped.append((self.places[word], line))

    def intrinsic(self, name, line, callee, values):
        if callee != FILL:
            return super().intrinsic(name, line, callee, values)
        if values[1] != "0":
            raise Unexpected(f"a fill with something else than zeros, in {name}: {line}")
        self.memory.reach(self.places[values[0]], int(values[2]))
        self.filled.append((self.places[values[0]], int(values[2]), line))

    def refuse(self, why):
        if self.judged:
            raise Unexpected(why)

    # ---- the slots
    def slots_of(self, block, offsets):
        """Where the block's slots begin."""
        starts = sorted({offset - at for offset, uses in offsets.items() for kind, at in uses if kind in (POINTER, WIDE)})
        for start in starts:
            for at in range(SLOT):
                uses = offsets.get(start + at, {})
                if len(uses) > 1 or not all(kind in (POINTER, WIDE) and byte == at for kind, byte in uses):
                    self.refuse(f"a slot that is used otherwise too, in {block[0]}: " + "; ".join(sorted(uses.values())[:2]))
        return starts

    def hold(self):
        """What must hold besides: see above."""
        for one, other, length in self.memory.links:
            if self.within(one, length) != self.within(other, length):
                self.refuse(f"the same bytes with different slots: {one} and {other}")
        for place, length, line in [*self.filled, *((place, length, line) for source, target, length, line in self.copied for place in (source, target))]:
            self.whole(place, length, line)
        for (block, offset), line in self.stepped:
            self.whole((block, offset), 0, line)
        for (block, offset), line in self.computed:
            if any(start + SLOT > offset for start in self.slots.get(block, ())):
                self.refuse(f"a computed index into memory with slots, in {block[0]}: {line}")

    def within(self, place, length):
        block, offset = place
        return [start - offset for start in self.slots.get(block, ()) if offset - SLOT < start < offset + length]

    def whole(self, place, length, line):
        """No slot is cut by the first or the last byte."""
        block, offset = place
        for start in self.slots.get(block, ()):
            if any(start < edge < start + SLOT for edge in (offset, offset + length)):
                self.refuse(f"a part of a slot, in {block[0]}: {line}")

    # ---- the new offsets
    def moved(self, block, offset):
        """Where a byte that is not inside of a slot lies from now on."""
        return offset - HALF * sum(start < offset for start in self.slots.get(block, ()))

    def fields(self, place, length):
        """What lies in so many bytes: (offset from the place, type), if every byte has one use; otherwise None."""
        block, offset = place
        found, at = [], 0
        while at < length:
            uses = self.memory.uses[block].get(offset + at, {})
            kind = next(iter(uses))[0] if len(uses) == 1 else None
            kind = {POINTER: "ptr", WIDE: "i64"}.get(kind, kind)
            if kind is None or any(set(self.memory.uses[block].get(offset + at + byte, {})) != {({"ptr": POINTER, "i64": WIDE}.get(kind, kind), byte)} for byte in range(WIDTHS[kind])):
                return None
            found.append((at, kind))
            at += WIDTHS[kind]
        return found if at == length else None

    def length(self, place, length):
        """How long so many bytes from a place are from now on."""
        block, offset = place
        return self.moved(block, offset + length) - self.moved(block, offset)
