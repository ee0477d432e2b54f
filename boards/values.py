"""The values of one function, with its variables seen through: what a load gives back, by what was stored, and what is known where a branch was taken.

A slot is a whole number in a variable whose address is not kept. Each load of a slot has a version: the value that was stored, or, where paths with different
versions meet, the meeting itself, which is named by its block. Two loads of one version give the same number.
"""
import re

from functions import callee_and_values, successors
from module import COPY, FILL, FORMS, INTEGER, MARKS, WIDTHS

NUMBER = re.compile(rf"(%\w+) = (\w+)((?: \w+)*) ({INTEGER}) (\S+), (\S+)$")
CHANGE = re.compile(rf"(%\w+) = (zext|trunc)(?: \w+)* ({INTEGER}) (\S+) to ({INTEGER})$")
BRANCH = re.compile(r"br i1 (\S+), label %([\w.]+), label %([\w.]+)$")
LOST = "lost"


class Values:
    def __init__(self, function, effects):
        self.function, self.name = function, function.name
        self.roots, self.kept, self.effects = effects.roots[function.name], effects.kept(function), effects
        self.numbers = [word for _, word in function.parameters]
        self.take_blocks()
        self.find_dominators()
        self.define()
        self.find_versions()

    # ---- blocks
    def take_blocks(self):
        """Each block by its label: its lines' numbers, and the blocks before it."""
        lines, self.blocks, self.block_of = self.function.lines, {}, []
        for at, line in enumerate(lines):
            if FORMS["label"].match(line):
                label = line.split(":")[0]
                self.blocks[label] = []
            self.blocks[label].append(at)
            self.block_of.append(label)
        next_lines = successors(lines)
        self.before = {label: [] for label in self.blocks}
        for at, after in enumerate(next_lines):
            for one in after:
                if one != at + 1 or lines[at].startswith(("br ", "switch ")):
                    self.before[self.block_of[one]].append(self.block_of[at])

    def find_dominators(self):
        """Block -> the blocks that every way to it goes through."""
        labels = list(self.blocks)
        self.dominators = {label: set(labels) for label in labels}
        self.dominators[labels[0]] = {labels[0]}
        changed = True
        while changed:
            changed = False
            for label in labels[1:]:
                new = {label} | (set.intersection(*(self.dominators[one] for one in self.before[label])) if self.before[label] else set())
                changed |= new != self.dominators[label]
                self.dominators[label] = new

    def last(self, label):
        return self.function.lines[self.blocks[label][-1]]

    def edge(self, source, target):
        """What is known because a branch went this way: (condition, true or false)."""
        found = BRANCH.match(self.last(source))
        if found and found[2] != found[3]:
            return [(found[1], found[2] == target)]
        return []

    def known(self, label):
        """What is known in a block: of each block that every way leads through, the edge by which alone it is entered."""
        if label not in self.known_at:
            self.known_at[label] = [one for at in self.dominators[label] if len(self.before[at]) == 1 for one in self.edge(self.before[at][0], at)]
        return self.known_at[label]

    # ---- values
    def define(self):
        """Word -> number of the line that makes it."""
        self.defined, self.known_at = {}, {}
        for at, line in enumerate(self.function.lines):
            if found := re.match(r"(%\w+) = ", line):
                self.defined[found[1]] = at

    def find_versions(self):
        """The version that each load of a slot gives, by the load's word; and what meets at each meeting."""
        self.version, self.meetings, self.out = {}, set(), {}
        changed = True
        while changed:
            changed = False
            for label in self.blocks:
                state = self.entering(label)
                for at in self.blocks[label]:
                    self.follow(at, state)
                changed |= self.out.get(label) != state
                self.out[label] = state

    def entering(self, label):
        """Slot -> version at a block's begin."""
        ways = [self.out[one] for one in self.before[label] if one in self.out]
        state = {}
        for slot in set().union(*ways):
            meeting = ("meets", label, slot)
            found = {way.get(slot, LOST) for way in ways} - {meeting}
            one = found.pop() if len(found) == 1 else meeting
            if one in self.defined and self.block_of[self.defined[one]] not in self.dominators[label] or meeting in self.meetings:
                one = meeting
            if one == meeting:
                self.meetings.add(meeting)
            state[slot] = one
        return state

    def follow(self, at, state):
        _, form, found = self.function.matches()[at]
        if form == "store":
            root, offset = self.roots.at[found[3]]
            self.lose(state, root, offset, WIDTHS[found[1]])
            if offset is not None and found[1] != "ptr" and root in self.function.variables() and root not in self.kept:
                state[root, offset, found[1]] = self.same(found[2])
        elif form == "load" and found[2] != "ptr":
            root, offset = self.roots.at[found[3]]
            self.version[found[1]] = state.get((root, offset, found[2]), LOST)
        elif form == "call":
            for root in self.effects.by_call(self.roots, found)[1] if callee_and_values(found)[0] not in MARKS else ():
                self.lose(state, root, None, 0)

    @staticmethod
    def lose(state, root, offset, width):
        """What is written over is no longer known."""
        for slot in [slot for slot in state if slot[0] == root and (offset is None or slot[1] < offset + width and offset < slot[1] + WIDTHS[slot[2]])]:
            state[slot] = LOST

    def same(self, value):
        """The value that a load gives back, or the value itself."""
        version = self.version.get(value, LOST)
        return value if version == LOST else version

    def meeting(self, version):
        """What meets: (block before, version there)."""
        _, label, slot = version
        return [(one, self.out[one].get(slot, LOST)) for one in self.before[label]]

    def line(self, value):
        return self.function.lines[self.defined[value]] if value in self.defined else ""
