"""The module as the toolchain makes it, brought to the form that the others here read: in text, and for what is made small function by function.

- A function that gives back a pointer, as std's from a slice to an array, is compiled into its callers, so that no result is a pointer.
- A slice that C lends begins where C says, also at NULL; the toolchain's exports have it begin at 4096 then, and nothing is read or written there either way.
- Bytes are copied one after the other; the toolchain copies at once what does not overlap, by a test of two addresses.
- A tag is stored alone; the toolchain fills the bytes between it and the first field, too, which belong to neither.
- Blocks that nothing leads to are left out.
- A result of two fields is written to where its caller wants it, as longer ones are; the toolchain hands it back in two registers.
- Of what is made small or lean: a variable is not filled with zeros before its function begins (what is read of it is written first), a struct that is copied field by
  field is copied at once, and a sum, a difference or a product is marked as the toolchain has proved it, never beyond its type or below 0 (the library asks for
  none that may be).
"""
import re

from copies import without_copies
from functions import put_together, take_apart
from module import COPY, FILL, INTEGER, WIDTHS, Unexpected

# A function's name, with the parenthesis behind it.
CALLED = r"@(?:\"[^\"]*\"|[\w.]+)\("

# How an export has a slice begin elsewhere where C lends NULL.
NULL_GUARD = re.compile(
    r"^  (%\w+) = icmp eq ptr (%\w+), null\n  (%\w+) = zext i1 \1 to i64\n  (%\w+) = mul i64 \3, 4096\n  (%\w+) = getelementptr i8, ptr \2, i64 \4\n", re.M
)
# Bytes are copied at once unless the target begins within the source, and then one after the other, which is right for all.
COPIED_APART = re.compile(
    r"^  (%\w+) = ptrtoaddr ptr %\w+ to i64\n  (%\w+) = ptrtoaddr ptr %\w+ to i64\n  (%\w+) = sub i64 \1, \2\n  (%\w+) = icmp ult i64 \3, %\w+\n"
    r"  br i1 \4, (label %inside\.\d+), label %apart\.\d+\n", re.M
)
PAIR = rf"\{{ ({INTEGER}|ptr), ({INTEGER}|ptr) \}}"
PAIR_HEAD = re.compile(rf"^(define internal )(?:noundef )?{PAIR} ({CALLED})(?=(.))", re.M)
PAIR_RETURNED = re.compile(rf"^  (%\w+) = load {PAIR}, ptr (%\w+), align \d+\n  ret {PAIR} \1\n", re.M)
# A call whose result's fields are stored one after the other.
PAIR_CALLED = re.compile(
    rf"^  (%\w+) = call {PAIR} ({CALLED})(.*)\)\n  (%\w+) = extractvalue {{ \2, \3 }} \1, 0\n  (%\w+) = extractvalue {{ \2, \3 }} \1, 1\n"
    r"  store \2 \6, ptr (%\w+), align \d+\n  (%\w+) = getelementptr i8, ptr \8, i64 (\d+)\n  store \3 \7, ptr \9, align \d+\n",
    re.M,
)
# A tag that is stored with the bytes behind it, which belong to no field: as a number that it is widened to, or as a constant.
WIDENED_TAG = re.compile(r"^  (%\w+) = zext i8 (%\w+) to (i16|i32|i64)\n  store \3 \1, (ptr %\w+, align 1)$", re.M)
CONSTANT_TAG = re.compile(r"^  store (?:i16|i32|i64) (\d+), (ptr %\w+, align 1)$", re.M)
FILLED = re.compile(rf"call void @{re.escape(FILL)}\(ptr (%\w+), i8 0, i64 (\d+), i1 false\)$")
MOVED = re.compile(rf"call void @{re.escape(COPY)}\(ptr (%\w+), ptr (%\w+), i64 (\d+), i1 false\)$")
TAG_LOADED = re.compile(r"(%\w+) = load i8, ptr (%\w+), align 1$")
TAG_STORED = re.compile(r"store i8 (%\w+), ptr (%\w+), align 1$")
STEPPED = re.compile(r"(%\w+) = getelementptr i8, ptr (%\w+), i64 (\d+)$")


# What gives back a pointer; and what the compiler calls that stands in its caller then.
GIVES_POINTER = re.compile(r"^(define internal (?:noundef )?ptr [^\n]*\))( #\d+ \{)$", re.M)
BROUGHT_IN = re.compile(r"(?<=%)(\w+)((?:\.i\d*)+)\b(?!\.)")
ENDS_OF_CALLS = re.compile(r"\"[^\"\n]*\.(exit\d*(?:\.i\d*)*)\"(?=[:, ]|$)", re.M)


# ---- in text
def marked(text):
    """The text with what gives back a pointer marked, to be compiled into its callers; None if nothing does."""
    found, count = GIVES_POINTER.subn(r"\1 alwaysinline\2", text)
    return found if count else None


def plain(text):
    text = ENDS_OF_CALLS.sub(r"\1", BROUGHT_IN.sub(lambda found: found[1] + found[2].replace(".", "_"), text))
    text = NULL_GUARD.sub(r"  \5 = getelementptr i8, ptr \2, i64 0\n", text)
    text = CONSTANT_TAG.sub(r"  store i8 \1, \2", WIDENED_TAG.sub(r"  store i8 \2, \4", text))
    text = COPIED_APART.sub(r"  br \5\n", text)
    text = re.sub(r"^(define [^\n]* \{\n)(.*?)^\}", lambda found: found[1] + "".join(reached_blocks(found[2])) + "}", text, flags=re.M | re.S)
    text = PAIR_HEAD.sub(lambda found: f"{found[1]}void {found[4]}ptr noundef %result{'' if found[5] == ')' else ', '}", text)
    text = PAIR_RETURNED.sub(lambda found: f"  call void @{COPY}(ptr %result, ptr {found[4]}, i64 {of_pair(found[2], found[3])[1]}, i1 false)\n  ret void\n", text)
    text = PAIR_CALLED.sub(told_where, text)
    if left := re.search(rf"^.*(?:{PAIR}|\bnull\b|\bextractvalue\b|store i(?:16|32|64) .*, align 1$).*", text, re.M):
        raise Unexpected(f"a line of another form: {left[0].strip()}")
    return text


def reached_blocks(body):
    """The blocks of a function that its first one leads to."""
    blocks = dict(re.findall(r"^([\w.]+):[^\n]*\n(.*?)(?=^[\w.]+:|\Z)", body, re.M | re.S))
    todo, found = [next(iter(blocks))], set()
    while todo:
        name = todo.pop()
        if name not in found:
            found.add(name)
            todo += re.findall(r"label %([\w.]+)", blocks[name])
    return [f"{name}:\n{lines}" for name, lines in blocks.items() if name in found]


def of_pair(first, second):
    """Where the second of two fields stands, and the length of both."""
    whole = max(WIDTHS[first], WIDTHS[second])
    offset = -(-WIDTHS[first] // WIDTHS[second]) * WIDTHS[second]
    return offset, -(-(offset + WIDTHS[second]) // whole) * whole


def told_where(found):
    if int(found[10]) != of_pair(found[2], found[3])[0]:
        raise Unexpected(f"a result that is stored in another form: {found[0].strip()}")
    return f"  call void {found[4]}ptr {found[8]}{', ' if found[5] else ''}{found[5]})\n"


# ---- of functions
def without_waste(functions):
    """All below, and without the copies that nobody needs."""
    for function in functions.values():
        without_zeros(function)
        with_whole_copies(function)
        with_proved_sums(function)
    without_copies(functions)


def lean(text):
    """The module's text after that."""
    functions, before, behind = take_apart(text)
    without_waste(functions)
    return put_together(functions, before, behind)


def without_zeros(function):
    """Leaves out that a variable of several bytes is zero at first. Each is, before it is named otherwise, so that no fill of the program's own goes in its place;
    but for those of the exports, which are written whole."""
    if function.exported:
        return
    found = {}
    for at, line in enumerate(function.lines):
        for word in set(re.findall(r"%\w+", line)) & function.variables().keys():
            found.setdefault(word, []).append(at)
    dropped = set()
    branch = next(at for at, line in enumerate(function.lines) if line.startswith(("br ", "switch ", "ret ", "unreachable")))
    for word in found:
        declared, *used = found[word]
        if "x i8]" not in function.lines[declared] or "[0 x i8]" in function.lines[declared] or re.search(r"_i\d*$", word):  # or of a function that was brought in
            continue
        fill = FILLED.match(function.lines[used[0]]) if used and used[0] < branch else None
        if not fill or int(fill[2]) != function.variables()[word][0]:
            raise Unexpected(f"a variable that is not zero at first, in {function.name}: {function.lines[declared]}")
        dropped.add(used[0])
    function.lines = [line for at, line in enumerate(function.lines) if at not in dropped]


def with_whole_copies(function):
    """A variable that is copied field by field, or becomes such a copy, is copied at once. The bytes between its fields have no use."""
    lines, at = [], 0
    while at < len(function.lines):
        length, source, target, whole = by_fields(function, at)
        lines.append(f"call void @{COPY}(ptr {target}, ptr {source}, i64 {whole}, i1 false)" if length else function.lines[at])
        at += length or 1
    function.lines = lines


def with_proved_sums(function):
    """Marks what the toolchain has proved and does not say in its module."""
    function.lines = [re.sub(rf"^(%\w+ = (?:add|sub|mul)) ({INTEGER}) ", r"\1 nuw \2 ", line) for line in function.lines]


def by_fields(function, at):
    """A copy field by field that begins here: how many lines it takes, from where and to where, and how many bytes; or no lines. It goes to the end of a variable,
    but for less than its alignment, or leaves out no byte."""
    found = field(function, at)
    if not found:
        return 0, None, None, 0
    source, target, _, end, lines = found
    fields, dense = 1, True
    while next_field := field(function, at + lines, source, target):
        if next_field[2] < end:
            break
        dense &= next_field[2] == end
        end, lines, fields = next_field[2] + next_field[3], lines + next_field[4], fields + 1
    size, alignment = min((function.variables()[word] for word in (target, source) if word in function.variables()), default=(0, 0))
    is_whole = end <= size < end + alignment
    return (lines, source, target, size if is_whole else end) if fields > 1 and (is_whole or dense) else (0, None, None, 0)


def field(function, at, source=None, target=None):
    """A field's copy at this line, of the struct that is copied from source to target or, where they are not given, of one that begins with it: from where, to where,
    at which offset, how many bytes, by how many lines; or None. A tag is loaded and stored, and what was loaded has no other use."""
    lines, offset, steps = [*function.lines[at : at + 4], "", "", "", ""], 0, 0
    if source:
        to, of = STEPPED.match(lines[0]), STEPPED.match(lines[1])
        if not (to and of) or (to[2], of[2]) != (target, source) or to[3] != of[3]:
            return None
        offset, steps = int(to[3]), 2
    if move := MOVED.match(lines[steps]):
        here, there, length, count = move[2], move[1], int(move[3]), 1
    else:
        load, store = TAG_LOADED.match(lines[steps]), TAG_STORED.match(lines[steps + 1])
        if not (load and store) or load[1] != store[1] or sum(load[1] in re.findall(r"%\w+", line) for line in function.lines) != 2:
            return None
        here, there, length, count = load[2], store[2], 1, 2
    if source and (there, here) != (to[1], of[1]):
        return None
    return here, there, offset, length, steps + count
