"""Copies that nobody needs are left out of the module's text. The toolchain hands structs on by their address, and each function copies what it is lent and what
it gives back; a copy goes where the bytes can be used where they stand. Each rule is one function below.
"""
import re

from functions import FOUND, PARAMETER, Alone, Effects, Roots, callee_and_values, successors
from module import COPY, FILL, WIDTHS

MOVE = re.compile(r"call void @llvm\.memmove\.p0\.p0\.i64\(ptr (%\w+), ptr (%\w+), i64 (\d+), i1 false\)$")


def uses(function, word):
    return [at for at, line in enumerate(function.lines) if re.search(rf"{re.escape(word)}(?!\w)", line)]


def renamed(function, names, dropped):
    """Without the lines `dropped` and the variables in `names`, which are other names from now on."""
    kept = [line for at, line in enumerate(function.lines) if at not in dropped and not any(line.startswith(f"{word} = alloca") for word in names)]
    function.lines = [re.sub(r"%\w+", lambda found: names.get(found[0], found[0]), line) for line in kept]


def lent_in_place(function, effects, alone):
    """A struct that is lent and only read is read where it stands. The copy is the parameter's only use and stands before any branch, nothing else writes the
    variable or keeps its address, and while the function runs nobody writes what is lent."""
    names, dropped, variables = {}, set(), function.variables()
    kept, written = effects.kept(function), [writes for _, writes in effects.lines(function)]
    first_branch = next(at for at, line in enumerate(function.lines) if line.startswith(("br ", "switch ", "ret ", "unreachable")))
    for number, word in function.pointers():
        used = uses(function, word)
        copy = MOVE.match(function.lines[used[0]]) if len(used) == 1 else None
        if not copy or copy[2] != word or used[0] > first_branch or copy[1] not in variables or (function.name, number) not in alone.still:
            continue
        size, alignment = variables[copy[1]]
        if size == int(copy[3]) and alignment <= alone.alignment[function.name, number] and copy[1] not in kept and sum(copy[1] in writes for writes in written) == 1:
            names[copy[1]] = word
            dropped.add(used[0])
    renamed(function, names, dropped)
    return len(names)


def given_in_place(function, effects, alone):
    """A result that is built in a variable and copied out right before every return is built where it goes. The copies are the parameter's only uses, the variable's
    address is not kept, and while the function runs nobody else reads or writes the place."""
    names, dropped, variables, kept = {}, set(), function.variables(), effects.kept(function)
    returns = [at for at, line in enumerate(function.lines) if line.startswith("ret ")]
    for number, word in function.pointers():
        used = uses(function, word)
        copies = [MOVE.match(function.lines[at]) for at in used]
        if not used or not all(copies) or any(copy[1] != word for copy in copies) or [at + 1 for at in used] != returns or (function.name, number) not in alone.own:
            continue
        built = {(copy[2], int(copy[3])) for copy in copies}
        variable, length = next(iter(built))
        if len(built) == 1 and variable in variables and variables[variable][0] == length and variable not in kept and variable not in names:
            if variables[variable][1] <= alone.alignment[function.name, number]:
                names[variable] = word
                dropped |= set(used)
    renamed(function, names, dropped)
    return len(names)


class Forwarding:
    """A variable that is written by one copy alone is read where the copy comes from, if that is not written between the copy and a use."""

    def __init__(self, function, effects, alone):
        self.function, self.alone = function, alone
        self.roots = effects.roots[function.name] = Roots(function)
        self.kept, self.variables = effects.kept(function), function.variables()
        self.reads, self.writes = zip(*effects.lines(function))
        self.next_lines = successors(function.lines)

    def may_stand(self, source, alignment):
        """Whether the source is memory that is written only by lines of this function that say so."""
        root, offset = self.roots.at[source]
        if offset is None or root in self.kept or self.roots.kind[root] == FOUND:
            return False
        if self.roots.kind[root] == PARAMETER:
            if self.function.parameter(root) not in self.alone.still:
                return False
        return alignment <= self.alone.aligned(self.function, source)

    def find(self):
        """A copy that can go: (line, variable, source)."""
        for at, line in enumerate(self.function.lines):
            copy = MOVE.match(line)
            if not copy or copy[1] not in self.variables or copy[1] in self.kept or sum(copy[1] in writes for writes in self.writes) != 1:
                continue
            size, alignment = self.variables[copy[1]]
            root = self.roots.of(copy[2])
            if size == int(copy[3]) and root != copy[1] and self.may_stand(copy[2], alignment) and self.unchanged(at, copy[1], root):
                return at, copy[1], copy[2]
        return None

    def unchanged(self, copy, variable, root):
        """No use comes before the copy, and none behind it once the source was written."""
        seen, todo = set(), [(0, True)]
        while todo:
            at, stale = state = todo.pop()
            if state in seen:
                continue
            seen.add(state)
            if at == copy:
                stale = False
            else:
                written = root in self.writes[at]
                if variable in self.reads[at] and (stale or written):
                    return False
                stale |= written
            todo += [(one, stale) for one in self.next_lines[at]]
        return True


def reached(next_lines, starts, stop=None):
    """The lines that follow from these and they themselves, without going through `stop`."""
    found, todo = set(), [at for at in starts if at != stop]
    while todo:
        at = todo.pop()
        if at not in found:
            found.add(at)
            todo += [one for one in next_lines[at] if one != stop]
    return found


class Building(Forwarding):
    """A variable that is copied whole into a part of another place, and is not used afterwards, is built there. Whoever touches the variable comes to the copy, and till
    then nobody touches that part of the place."""

    # A shorter one lies in registers: built elsewhere it takes more code.
    LEAST = 20

    def may_hold(self, word, alignment):
        """Whether the place is memory that only lines of this function touch, which say where."""
        root, offset = self.roots.at[word]
        if offset is None or root in self.kept or self.roots.kind[root] == FOUND:
            return False
        if self.roots.kind[root] == PARAMETER and self.function.parameter(root) not in self.alone.own:
            return False
        return alignment <= self.alone.aligned(self.function, word)

    def find(self):
        """A copy that can go: (line, variable, place)."""
        for at, line in enumerate(self.function.lines):
            copy = MOVE.match(line)
            if copy and copy[2] in self.variables and copy[2] not in self.kept and self.roots.of(copy[1]) != copy[2]:
                size, alignment = self.variables[copy[2]]
                if size == int(copy[3]) >= self.LEAST and self.may_hold(copy[1], alignment) and self.leads_there(at, copy[2], copy[1], size):
                    return at, copy[2], copy[1]
        return None

    def leads_there(self, copy, variable, place, size):
        touching = [at for at in range(len(self.reads)) if at != copy and variable in self.reads[at] | self.writes[at]]
        between = reached(self.next_lines, touching, copy)
        if any(self.function.lines[at].startswith("ret ") for at in between) or reached(self.next_lines, self.next_lines[copy]) & set(touching):
            return False
        root, start = self.roots.at[place]
        return not any(self.touches(at, root, start, start + size) for at in between)

    def touches(self, at, root, start, end):
        """Whether a line may touch these bytes of a root."""
        if root not in self.reads[at] | self.writes[at]:
            return False
        _, form, found = self.function.matches()[at]
        accesses = None
        if form in ("load", "store"):
            accesses = [(found[3], WIDTHS[found[2 if form == "load" else 1]])]
        elif callee_and_values(found)[0] in (COPY, FILL):
            callee, values = callee_and_values(found)
            accesses = [(word, int(values[2]) if values[2].isdigit() else None) for word in (values[:2] if callee == COPY else values[:1])]
        return accesses is None or any(self.overlaps(word, length, root, start, end) for word, length in accesses)

    def overlaps(self, word, length, root, start, end):
        at, offset = self.roots.at[word]
        return at == root and (offset is None or length is None or offset < end and start < offset + length)

    def build_there(self, copy, variable, place):
        root, offset = self.roots.at[place]
        word = f"{variable}_there"
        renamed(self.function, {variable: word}, {copy})
        lines = self.function.lines
        first = next((at + 1 for at, line in enumerate(lines) if line.startswith(f"{root} = alloca")), 1 if lines[0].endswith(":") else 0)
        self.function.lines = [*lines[:first], f"{word} = getelementptr i8, ptr {root}, i64 {offset}", *lines[first:]]


def without_copies(functions):
    """Leaves out what can be, function by function; gives how many copies went by each rule."""
    effects = Effects(functions)
    alone = Alone(effects)
    gone = {"lent": 0, "given": 0, "forwarded": 0, "built": 0}
    for function in functions.values():
        if not function.exported:
            gone["lent"] += lent_in_place(function, effects, alone)
    effects = Effects(functions)
    alone = Alone(effects)
    for function in functions.values():
        if not function.exported:
            gone["given"] += given_in_place(function, effects, alone)
    effects = Effects(functions)
    alone = Alone(effects)
    for function in functions.values():
        while found := Forwarding(function, effects, alone).find():
            at, variable, source = found
            renamed(function, {variable: source}, {at})
            gone["forwarded"] += 1
    effects = Effects(functions)
    alone = Alone(effects)
    for function in functions.values():
        while (building := Building(function, effects, alone)) and (found := building.find()):
            building.build_there(*found)
            gone["built"] += 1
    return gone
