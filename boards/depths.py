"""How deep the stack is, read from the assembler's text of an object, instruction by instruction.

The compiler tells a frame for each function (-fstack-usage), but not what its outliner does afterwards: code that stands in several places becomes a function of its
own, OUTLINED_FUNCTION_n. That may be a part of a prologue or of an epilogue, and on Arm the return address is pushed around such a call, or inside. So each function
is followed along all branches, with the bytes between the stack pointer at its start and now. What is not known here stops it: an instruction that changes the stack
pointer otherwise, a place that is reached with two depths or not at all, a function that gives back more or less than it took.
"""
import re
from collections import namedtuple

from module import Unexpected

OUTLINED = "OUTLINED_FUNCTION_"
SYMBOL = r'(?:"[^"]+"|[\w.$]+)'
FUNCTION = re.compile(rf"^\t\.type\t({SYMBOL}),[%@]function\n(.*?)^\.Lfunc_end\d+:", re.M | re.S)
LABEL = re.compile(r"(\.L\w+):$")
# What a table of jumps consists of.
DATA = re.compile(r"^\t\.(?:byte|short|hword|half|2byte|long|word|4byte)\t(.*)", re.M)
CONDITION = "eq|ne|hs|lo|mi|pl|vs|vc|hi|ls|ge|lt|gt|le"

# What a helper (memcpy and its kind) may take: those of tools/bare take 16 bytes.
HELPER = 16

# What an instruction does: the bytes that it takes off the stack, then what follows (go on, call, jump, leave, give back, table, stop) and where; maybe: or nothing of it.
Deed = namedtuple("Deed", "takes then where maybe", defaults=(0, "go on", None, False))
# Of a function: the bytes that it takes and does not give back, the most at any place, and its calls with the bytes there.
Found = namedtuple("Found", "kept most calls")


def to(symbol, maybe=False):
    """A branch within the function, or the end of it in another one."""
    return Deed(0, "jump" if symbol.startswith(".L") else "leave", symbol.strip('"'), maybe)


# ---- Arm, Thumb
def arm(words, operands, _):
    name, condition = re.fullmatch(rf"([a-z\d]+?)({CONDITION})?(?:\.[wn]|\.\w+)?", words).groups()
    takes = arm_takes(name, operands)
    if takes and condition and "pc" not in operands:
        raise Unexpected(f"the stack pointer changes on a condition: {words} {operands}")
    if name in ("cbz", "cbnz"):
        return to(operands.split(", ")[1], True)
    if name == "b":
        return to(operands, bool(condition))
    if name == "bl" and operands.startswith(".L"):
        # A jump too far for a Cortex-M0's branch: the return address is on the stack by then.
        return to(operands)
    if name == "bl":
        return Deed(0, "call", operands.strip('"'))
    if name in ("pop", "ldr") and takes and re.search(r"\bpc\b", operands) or (name, operands) == ("bx", "lr"):
        return Deed(takes, "give back", None, bool(condition))
    if name in ("tbb", "tbh") or re.match(r"pc\b", operands):
        return Deed(0, "table")
    if name in ("bx", "blx"):
        raise Unexpected(f"a call or a jump to no name: {words} {operands}")
    return Deed(0, "stop") if name in ("udf", "trap") else Deed(takes)


def arm_takes(name, operands):
    """The bytes by which the stack pointer goes down."""
    if name in ("push", "pop"):
        return (1 if name == "push" else -1) * 4 * len(operands.strip("{}").split(", "))
    if name in ("sub", "subw", "add", "addw") and (found := re.fullmatch(r"sp, (?:sp, )?#(\d+)", operands)):
        return (1 if name.startswith("sub") else -1) * int(found[1])
    if name.startswith("str") and (found := re.search(r"\[sp, #-(\d+)\]!$", operands)) or name.startswith("ldr") and (found := re.search(r"\[sp\], #(\d+)$", operands)):
        return int(found[1]) * (1 if name.startswith("str") else -1)
    if name in ("stm", "ldm") and re.match(r"sp, \{", operands):
        return 0
    if re.match(r"sp\b", operands) or re.search(r"sp!|\[sp\],|\[sp,.*\]!", operands):
        raise Unexpected(f"an unknown change of the stack pointer: {name} {operands}")
    return 0


# ---- RISC-V
def riscv(name, operands, outlined):
    last = operands.split(", ")[-1]
    if name == "addi" and (found := re.fullmatch(r"sp, sp, (-?\d+)", operands)):
        return Deed(-int(found[1]))
    if re.match(r"sp\b", operands):
        raise Unexpected(f"an unknown change of the stack pointer: {name} {operands}")
    if name in ("call", "jal"):
        return Deed(0, "call", last.strip('"'))
    if name in ("j", "tail"):
        return to(last)
    if name.startswith("b"):
        return to(last, True)
    if name == "ret" or name == "jr" and outlined and operands == "t0":
        return Deed(0, "give back")
    if name == "jalr":
        raise Unexpected(f"a call to no name: {name} {operands}")
    return Deed(0, "table") if name == "jr" else Deed(0, "stop") if name in ("unimp", "ebreak") else Deed()


# ---- the text
class Depths:
    def __init__(self, text, riscv_text):
        self.read, comment = (riscv, "#") if riscv_text else (arm, "@")
        self.lines = {name.strip('"'): instructions(body, comment) for name, body in FUNCTION.findall(text)}
        self.tabled = {label for data in DATA.findall(text) for label in re.findall(r"\.LBB\w+", data)}
        self.found, self.known = {}, {}

    def of(self, name):
        if name not in self.lines:
            raise Unexpected(f"the assembler's text does not have {name}")
        if name not in self.found:
            self.found[name] = None
            self.found[name] = self.follow(name)
        if self.found[name] is None:
            raise Unexpected(f"{name} calls itself")
        return self.found[name]

    def kept(self, name):
        """What a call leaves on the stack: only an outlined function may."""
        return self.of(name).kept if name.startswith(OUTLINED) else 0

    def follow(self, name):
        lines, outlined = self.lines[name], name.startswith(OUTLINED)
        labels = {line[0]: number for number, line in enumerate(lines) if len(line) == 1}
        depths, ends, calls, todo = {}, set(), set(), [(0, 0)]
        while todo:
            number, depth = todo.pop()
            if number == len(lines) or depths.setdefault(number, depth) != depth:
                raise Unexpected(f"{name} goes on behind its end, or has two depths at one place: {depth} at {' '.join(lines[number - 1])}")
            deed = self.read(*lines[number], outlined) if len(lines[number]) > 1 else Deed()
            if deed.then in ("call", "leave"):
                calls.add((deed.where, depth))
            if deed.then in ("give back", "leave"):
                ends.add(depth + deed.takes + (self.kept(deed.where) if deed.where else 0))
            todo += [one for one in self.after(number, depth, deed, labels) if one not in depths.items()]
        missed = [line for number, line in enumerate(lines) if number not in depths and len(line) > 1]
        if missed or len(ends) > 1 or ends - {0} and not outlined:
            raise Unexpected(f"{name} gives back more or less than it took, by {sorted(ends)}, or has instructions that are not reached: {missed[:2]}")
        return Found(max(ends, default=0), max(depths.values()), calls)

    def after(self, number, depth, deed, labels):
        """The lines that may follow, each with its depth."""
        found = []
        if deed.then == "table":
            found = [(labels[label], depth) for label in sorted(self.tabled & labels.keys())]
        elif deed.then == "jump":
            found = [(labels[deed.where], depth)]
        elif deed.then == "call":
            found = [(number + 1, depth + self.kept(deed.where))]
        elif deed.then == "go on":
            found = [(number + 1, depth + deed.takes)]
        return found + ([(number + 1, depth)] if deed.maybe else [])

    def deepest(self, name, path=()):
        """The most bytes that a call takes, with its callees': (bytes, path). A helper is not known here: it has HELPER bytes."""
        if name in path:
            raise Unexpected(f"{name} calls itself, by " + " ".join(path))
        if name not in self.known:
            found = self.of(name)
            below = [(depth, *(self.deepest(callee, (*path, name)) if callee in self.lines else (HELPER, (callee,)))) for callee, depth in found.calls]
            most, depth, way = max(((depth + more, depth, way) for depth, more, way in below), default=(0, 0, ()))
            self.known[name] = (most, (f"{name} {depth}", *way)) if most > found.most else (found.most, (f"{name} {found.most}",))
        return self.known[name]

    def agree(self, calls, frames):
        """The text's calls are the object's, and its depths are the compiler's frames where nothing was taken out of a function."""
        for name, callees in calls.items():
            found = self.of(name)
            told = {callee for callee, _ in found.calls}
            if callees != told:
                raise Unexpected(f"{name} calls other functions in the assembler's text than in the object: " + " ".join(sorted(callees ^ told)))
            if not any(one.startswith(OUTLINED) for one in (name, *callees)) and found.most != frames.get(name):
                raise Unexpected(f"{name} takes {found.most} bytes of stack in the assembler's text, and the compiler says {frames.get(name)}")


def instructions(body, comment):
    """The labels, as (label,), and the instructions, as (name, operands)."""
    found = []
    for line in body.splitlines():
        line = line.split(comment)[0].rstrip()
        if label := LABEL.match(line):
            found.append((label[1],))
        elif line.startswith("\t") and not line.startswith("\t."):
            name, _, operands = line.strip().partition("\t")
            found.append((name, operands.strip()))
        elif line.startswith("\t.inst"):
            found.append(("trap", ""))
    return found
