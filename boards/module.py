"""The library's LLVM module, as text: what it must look like to be read for another processor, and what is changed in it.

The module is made for 64-bit pointers: a pointer has a slot of 8 bytes and a slice is a pointer at 0 and a 64-bit length at 8. For a 32-bit processor it is read
as it stands: a pointer then takes 4 bytes of its slot. That is exact as long as no pointer is made from a number or read as one. `audit` looks for all of this:

- every line is of a form that is known here, so that nothing new slips by;
- calls are direct, to the module's own functions and to three intrinsics;
- no byte of memory is used both by a pointer and by a number, followed through variables, parameters, copies and pointers to pointers;
- a copy takes a pointer's slot whole or not at all, and no pointer is found by a computed index.
"""
import re
from collections import defaultdict

SLOT = 8
WIDTHS = {"i1": 1, "i8": 1, "i16": 2, "i32": 4, "i64": 8, "ptr": SLOT}
COPY, FILL, TRAP = INTRINSICS = ("llvm.memmove.p0.p0.i64", "llvm.memset.p0.i64", "llvm.trap")
# What marks where a variable begins and ends to be needed: written by lifetimes.py, and never in the module as it comes.
MARKS = ("llvm.lifetime.start.p0", "llvm.lifetime.end.p0")
NUMBER = "number"
# What ties the text to x86-64.
TIES = [r'^target (datalayout|triple) .*\n', r' "target-cpu"="[\w-]+"', r' "probe-stack"="inline-asm"', r' "stack-probe-size"="\d+"']

NAME = r'@("[\w:.<>$ ,&+*=(){}#\x27\[\]-]+"|[\w.]+)'
INTEGER = r"i(?:1|8|16|32|64)"
VALUE = r"(?:%[\w.]+|-?\d+|true|false)"
LABEL = r"label %[\w.]+"
FORMS = {
    "alloca": re.compile(rf"(%\w+) = alloca (?:\[(\d+) x i8\]|({INTEGER}|ptr)), align (\d+)$"),
    "step": re.compile(rf"(%\w+) = getelementptr (?:inbounds |nuw )*i8, ptr (%\w+), i64 ({VALUE})$"),
    "load": re.compile(rf"(%\w+) = load ({INTEGER}|ptr), ptr (%\w+), align (\d+)(?:, ![\w.]+ !\d+)*$"),
    "store": re.compile(rf"store ({INTEGER}|ptr) ({VALUE}), ptr (%\w+), align (\d+)$"),
    "call": re.compile(rf"(?:(%\w+) = )?call (?:noundef |zeroext )*(?:void|{INTEGER}) {NAME}\((.*)\)(?: #\d+)?$"),
    "number": re.compile(
        rf"%\w+ = (?:(?:add|sub|mul|shl|udiv|urem|lshr|and|or|xor)(?: nuw| nsw| exact| disjoint)* {INTEGER} {VALUE}, {VALUE}"
        rf"|icmp \w+ {INTEGER} {VALUE}, {VALUE}|(?:zext|trunc)(?: nneg| nuw| nsw)* {INTEGER} {VALUE} to {INTEGER})$"
    ),
    "flow": re.compile(
        rf"(?:br {LABEL}|br i1 {VALUE}, {LABEL}, {LABEL}|ret void|ret {INTEGER} {VALUE}|unreachable|switch {INTEGER} {VALUE}, {LABEL} \[|{INTEGER} -?\d+, {LABEL}|\])$"
    ),
    "label": re.compile(r"[\w.]+:(?: *; .*)?$"),
}


class Unexpected(Exception):
    """The module, the header or the archive is not as expected."""


def functions(text):
    """Each function's name, parameters as (type, name), result's type, whether it is exported, and lines."""
    for head, body in re.findall(r"^define ([^\n]*) \{\n(.*?)^\}", text, re.M | re.S):
        found = re.match(rf"(internal )?(?:noundef |zeroext )*(void|{INTEGER}) {NAME}\((.*)\)(?: #\d+)?$", head)
        if not found:
            raise Unexpected(f"a function of another form: define {head}")
        parameters = [(word.split()[0], word.split()[-1]) for word in found[4].split(", ") if word]
        yield found[3].strip('"'), parameters, found[2], not found[1], [line.strip() for line in body.splitlines() if line.strip()]


def exports(text):
    """The exported functions: name, and result and parameters by type."""
    return {name: (result, [kind for kind, _ in parameters]) for name, parameters, result, exported, _ in functions(text) if exported}


def retargeted(text):
    """The same without what ties it to x86-64. Results narrower than a register fill it with zeros, as C callers on other processors rely on."""
    for tie in TIES:
        text = re.sub(tie, "", text, flags=re.M)
    text = re.sub(r"^define noundef (i1|i8|i16) (@[a-z])", r"define noundef zeroext \1 \2", text, flags=re.M)
    if re.search(r"^define (?!.*zeroext)[a-z ]*(i1|i8|i16) @[a-z]", text, re.M):
        raise Unexpected("an export whose result is not filled up with zeros")
    return text


def apart(text, names):
    """The same, where these functions are called and not compiled into their callers."""
    for name in names:
        text, count = re.subn(rf'^(define internal [^\n]*@"{re.escape(name)}"\([^\n]*\)) (#\d+ )?\{{', r"\1 noinline \2{", text, flags=re.M)
        if count != 1:
            raise Unexpected(f"{name} is to be a function of its own, and the module has {count} of them")
    return text


class Memory:
    """Who uses which byte of memory. A block is a variable, or what a parameter or a loaded pointer points to; a place is a block and an offset in it."""

    def __init__(self):
        self.uses = defaultdict(lambda: defaultdict(dict))  # block -> offset -> use -> a line that makes it
        self.pointees = defaultdict(dict)                   # block -> offset -> the places to which the pointer there points
        self.sizes, self.alignments = {}, {}                # of the variables
        self.reaches = defaultdict(int)                     # block -> how many of its bytes are used or lent on
        self.links = set()                                  # (place, place, length): the same bytes, or a copy of them

    def use(self, place, kind, line):
        block, offset = place
        self.reach(place, WIDTHS[kind])
        for at in range(WIDTHS[kind]):
            self.uses[block][offset + at].setdefault(("pointer", at) if kind == "ptr" else NUMBER, line)

    def reach(self, place, length):
        """True if so much was known."""
        block, offset = place
        known = self.reaches[block] >= offset + length
        self.reaches[block] = max(self.reaches[block], offset + length)
        return known

    def link(self, one, other, length):
        self.links.add((min(one, other), max(one, other), length))

    def point(self, place, target):
        """The pointer at a place points to the target; two targets of one pointer are the same bytes."""
        block, offset = place
        known = self.pointees[block].setdefault(offset, target)
        if known != target:
            self.link(known, target, max(self.reaches[at] - start for at, start in (known, target)))

    def size(self):
        return len(self.links), sum(len(uses) for offsets in self.uses.values() for uses in offsets.values()), sum(map(len, self.pointees.values()))

    def spread(self):
        """Carries uses and pointees over all links, until nothing new is found."""
        size = None
        while size != self.size():
            size = self.size()
            for one, other, length in list(self.links):
                self.carry(one, other, length)
                self.carry(other, one, length)

    def carry(self, source, target, length):
        (block, start), (to_block, to_start) = source, target
        for offset in [offset for offset in self.uses[block] if start <= offset < start + length]:
            self.uses[to_block][offset - start + to_start].update(self.uses[block][offset])
        for offset in [offset for offset in self.pointees[block] if start <= offset < start + length]:
            self.point((to_block, offset - start + to_start), self.pointees[block][offset])

    def pointer_at(self, block, offset):
        """Where the pointer starts whose slot holds this byte, or None."""
        return next((offset - use[1] for use in self.uses[block].get(offset, ()) if use != NUMBER), None)


class Audit:
    def __init__(self, text):
        self.functions = {name: (parameters, lines) for name, parameters, _, _, lines in functions(text)}
        self.memory = Memory()
        self.lent, self.copied, self.pointed, self.computed = [], [], [], []

    def run(self):
        for name, (parameters, lines) in self.functions.items():
            self.places = {word: ((name, word), 0) for kind, word in parameters if kind == "ptr"}
            for line in lines:
                self.read(name, line)
        self.connect()
        self.memory.spread()
        self.judge()

    # ---- one method for each form of a line that touches memory
    def read(self, name, line):
        for form, pattern in FORMS.items():
            found = pattern.match(line)
            if found:
                return getattr(self, form, lambda *_: None)(name, line, *found.groups())
        raise Unexpected(f"a line of another form, in {name}: {line}")

    def alloca(self, name, line, word, length, kind, alignment):
        block = (name, word)
        self.places[word] = (block, 0)
        self.memory.sizes[block] = int(length) if length else 4 if kind == "ptr" else WIDTHS[kind]
        self.memory.alignments[block] = int(alignment)

    def step(self, name, line, word, base, index):
        block, offset = self.places[base]
        if index.isdigit():
            self.places[word] = (block, offset + int(index))
        else:
            self.places[word] = ((name, word), 0)
            self.computed += [(self.places[base], line), (self.places[word], line)]

    def aligned(self, place, alignment, line):
        block, offset = place
        if offset % int(alignment) or self.memory.alignments.get(block, SLOT) < int(alignment):
            raise Unexpected(f"an alignment that is not there, in {block[0]}: {line}")

    def load(self, name, line, word, kind, base, alignment):
        self.aligned(self.places[base], alignment, line)
        self.memory.use(self.places[base], kind, line)
        if kind == "ptr":
            self.places[word] = ((name, word), 0)
            self.pointed.append((self.places[base], self.places[word]))

    def store(self, name, line, kind, value, base, alignment):
        self.aligned(self.places[base], alignment, line)
        self.memory.use(self.places[base], kind, line)
        if kind == "ptr":
            self.pointed.append((self.places[base], self.places[value]))

    def call(self, name, line, word, callee, words):
        callee = callee.strip('"')
        values = [value.split()[-1] for value in words.split(", ")] if words else []
        if callee in INTRINSICS:
            return self.intrinsic(name, line, callee, values)
        if callee not in self.functions:
            raise Unexpected(f"a call of what is not in the module, in {name}: {line}")
        for (kind, parameter), value in zip(self.functions[callee][0], values, strict=True):
            if kind == "ptr":
                self.lent.append((self.places[value], (callee, parameter)))

    def intrinsic(self, name, line, callee, values):
        if callee == TRAP:
            return
        if not values[2].isdigit():
            raise Unexpected(f"a computed length, in {name}: {line}")
        length, target = int(values[2]), self.places[values[0]]
        if callee == FILL and values[1] == "0" and target[1] == 0 and length == self.memory.sizes.get(target[0]):
            self.memory.reach(target, length)  # a whole variable becomes zero, as what a pointer's slot holds as well
        elif callee == COPY:
            self.copied.append((self.places[values[1]], target, length, line))
        else:
            for at in range(length):
                self.memory.use((target[0], target[1] + at), "i8", line)

    # ---- what is the same memory
    def connect(self):
        for source, target, length, _ in self.copied:
            self.memory.reach(source, length)
            self.memory.reach(target, length)
            self.memory.link(source, target, length)
        while not all([self.memory.reach(place, self.memory.reaches[parameter]) for place, parameter in self.lent]):
            pass
        for place, parameter in self.lent:
            self.memory.link(place, (parameter, 0), self.memory.reaches[parameter])
        for place, target in self.pointed:
            self.memory.point(place, target)

    # ---- what must not be
    def judge(self):
        for (name, _), offsets in self.memory.uses.items():
            for lines in offsets.values():
                if len(lines) > 1:
                    raise Unexpected(f"a byte used by a pointer and otherwise too, in {name}: " + "; ".join(sorted(lines.values())[:2]))
        for (block, offset), line in self.computed:
            if self.memory.pointer_at(block, offset) is not None:
                raise Unexpected(f"a pointer behind a computed index, in {block[0]}: {line}")
        for source, target, length, line in self.copied:
            for block, offset in (source, target):
                if self.cuts(block, offset, offset + length):
                    raise Unexpected(f"a copy of a part of a pointer, in {block[0]}: {line}")

    def cuts(self, block, start, end):
        """Whether the bytes from start to end go beyond the variable, or into a pointer's slot and not through it."""
        pointers = {self.memory.pointer_at(block, at) for at in range(start, end)} - {None}
        return self.memory.sizes.get(block, end) < end or any(at < start or at + SLOT > end for at in pointers)


def audit(text):
    """Raises Unexpected with the first thing that is not as described above."""
    if re.search(r"\b(ptrtoint|inttoptr|addrspacecast)\b", text):
        raise Unexpected("a pointer made from a number, or a number from a pointer")
    if re.search(r"^@", text, re.M):
        raise Unexpected("a variable in the module")
    Audit(text).run()
