"""The module's functions, taken apart and put together again: which line follows which, and what each line reads and writes.

A root is where a pointer comes from: a variable of the function (alloca), a parameter, or a pointer that was loaded or found by a computed index. What a function
does to the memory behind its parameters is told for all functions together: it writes there, or it keeps the address (stores it).
"""
import re
from collections import defaultdict

from module import COPY, FILL, FORMS, INTEGER, INTRINSICS, NAME, WIDTHS, Unexpected

HEAD = re.compile(rf"define (internal )?((?:noundef |zeroext )*)(void|{INTEGER}) {NAME}\((.*)\) (#\d+ )?\{{$")
VARIABLE, PARAMETER, FOUND = "variable", "parameter", "found"


class Function:
    def __init__(self, head, lines):
        found = HEAD.match(head)
        if not found:
            raise Unexpected(f"a function of another form: {head}")
        self.head, self.lines, self.read_lines, self.read_variables = head, lines, None, None
        self.exported, self.result, self.name = not found[1], found[3], found[4].strip('"')
        self.parameters = [(word.split()[0], word.split()[-1]) for word in found[5].split(", ") if word]

    def matches(self):
        """Each line's number, form and match, read once for as long as the lines are the same list."""
        if self.read_lines is not self.lines:
            self.read_lines = self.lines
            self.read = [(at, *match(self.name, line)) for at, line in enumerate(self.lines)]
        return self.read

    def pointers(self):
        """The numbers and names of the parameters that are pointers."""
        return [(at, word) for at, (kind, word) in enumerate(self.parameters) if kind == "ptr"]

    def parameter(self, word):
        """A parameter as it is named among all functions: function and number."""
        return self.name, [name for _, name in self.parameters].index(word)

    def variables(self):
        """Variable -> bytes and alignment."""
        if self.read_variables is not self.lines:
            self.read_variables = self.lines
            self.known_variables = self.find_variables()
        return self.known_variables

    def find_variables(self):
        return {found[1]: (int(found[2] or WIDTHS[found[3]]), int(found[4])) for _, form, found in self.matches() if form == "alloca"}

    def text(self):
        return "\n".join([self.head, *(line if FORMS["label"].match(line) else f"  {line}" for line in self.lines), "}", ""])


def match(name, line):
    for form, pattern in FORMS.items():
        if found := pattern.match(line):
            return form, found
    raise Unexpected(f"a line of another form, in {name}: {line}")


def callee_and_values(found):
    """Of a call: the function's name and the arguments' values."""
    return found[2].strip('"'), [word.split()[-1] for word in found[3].split(", ")] if found[3] else []


def take_apart(text):
    """The functions by name, and the text before and behind them."""
    found = list(re.finditer(r"^(define [^\n]* \{)\n(.*?)^\}\n", text, re.M | re.S))
    made = [Function(one[1], [re.sub(r" *; .*", "", line.strip()) for line in one[2].splitlines() if line.strip()]) for one in found]
    before = re.sub(r"^; Function Attrs.*\n", "", text[: found[0].start()], flags=re.M)
    return {one.name: one for one in made}, before, text[found[-1].end() :]


def put_together(functions, before, behind):
    return before + "\n".join(function.text() for function in functions.values()) + behind


def reached(functions, names):
    """The functions that these call, and they themselves, in the module's order."""
    found, todo = set(), list(names)
    while todo:
        name = todo.pop()
        if name not in found:
            found.add(name)
            todo += [callee for _, form, found in functions[name].matches() if form == "call" and (callee := callee_and_values(found)[0]) in functions]
    return {name: function for name, function in functions.items() if name in found}


# ---- flow
def successors(lines):
    """For each line the numbers of the lines that may follow it."""
    at = {line.split(":")[0]: number for number, line in enumerate(lines) if FORMS["label"].match(line)}
    next_lines = [[] for _ in lines]
    for number, line in enumerate(lines):
        if line.startswith(("br ", "switch ")):
            end = lines.index("]", number) if line.startswith("switch ") else number
            next_lines[number] = [at[label] for label in re.findall(r"label %([\w.]+)", " ".join(lines[number : end + 1]))]
        elif not line.startswith(("ret ", "unreachable", "]")) and not re.match(rf"{INTEGER} -?\d+, label", line):
            next_lines[number] = [number + 1]
    return next_lines


# ---- memory
class Roots:
    """Of one function: each pointer's root and, where it is fixed, the offset from it."""

    def __init__(self, function):
        self.kind = {word: PARAMETER for _, word in function.pointers()}
        self.at = {word: (word, 0) for word in self.kind}
        for _, form, found in function.matches():
            if form == "alloca":
                self.root(found[1], VARIABLE)
            elif form == "load" and found[2] == "ptr":
                self.root(found[1], FOUND)
            elif form == "step":
                root, offset = self.at[found[2]]
                self.at[found[1]] = (root, offset + int(found[3]) if offset is not None and found[3].isdigit() else None)

    def root(self, word, kind):
        self.kind[word] = kind
        self.at[word] = (word, 0)

    def of(self, word):
        return self.at[word][0]


class Effects:
    """What all functions do to memory. `writes` and `keeps` have (function, number of the parameter)."""

    def __init__(self, functions):
        self.functions = functions
        self.roots = {name: Roots(function) for name, function in functions.items()}
        self.writes, self.keeps = set(), set()
        size = None
        while size != (len(self.writes), len(self.keeps)):
            size = len(self.writes), len(self.keeps)
            for function in functions.values():
                self.learn(function)
        self.touched = self.writes | self.keeps
        self.all_kept = {name: self.kept(function) for name, function in functions.items()}

    def learn(self, function):
        written, kept = set(), self.kept(function)
        for _, writes in self.lines(function):
            written |= writes
        for number, word in function.pointers():
            self.writes |= {(function.name, number)} if word in written else set()
            self.keeps |= {(function.name, number)} if word in kept else set()

    def lent(self, found):
        """Of a call of the module's: the numbers of the parameters that are pointers, with the pointers."""
        callee, values = callee_and_values(found)
        if callee in INTRINSICS:
            return callee, []
        return callee, [(number, values[number]) for number, _ in self.functions[callee].pointers()]

    def kept(self, function):
        """The roots whose address is stored by the function or by what it calls."""
        roots, kept = self.roots[function.name], set()
        for _, form, found in function.matches():
            if form == "store" and found[1] == "ptr":
                kept.add(roots.of(found[2]))
            elif form == "call":
                callee, lent = self.lent(found)
                kept |= {roots.of(word) for number, word in lent if (callee, number) in self.keeps}
        return kept

    def lines(self, function):
        """For each line the roots that it reads and that it writes. What is lent counts as read."""
        roots = self.roots[function.name]
        for _, form, found in function.matches():
            reads, writes = set(), set()
            if form == "store":
                writes = {roots.of(found[3])}
            elif form == "load":
                reads = {roots.of(found[3])}
            elif form == "call":
                reads, writes = self.by_call(roots, found)
            yield reads, writes

    def by_call(self, roots, found):
        callee, values = callee_and_values(found)
        if callee in (COPY, FILL):
            return {roots.of(values[1])} if callee == COPY else set(), {roots.of(values[0])}
        _, lent = self.lent(found)
        return {roots.of(word) for _, word in lent}, {roots.of(word) for number, word in lent if (callee, number) in self.writes}


class Alone:
    """Which parameters' memory nobody else touches while the function runs: `still` has those that nobody else writes, `own` those that nobody else reads
    either. Both begin as all parameters of the module's own functions, and lose what some call does not give. `alignment` is what all calls give; `aligned` what C
    gives to exports, by function and number of the parameter."""

    def __init__(self, effects, aligned=()):
        self.effects = effects
        inner = [function for function in effects.functions.values() if not function.exported]
        self.still = {(function.name, number) for function in inner for number, _ in function.pointers()}
        self.own = set(self.still)
        self.alignment = defaultdict(lambda: 1, {one: 8 for one in self.still} | dict(aligned))
        known = None
        while known != self.known():
            known = self.known()
            for function in effects.functions.values():
                self.look(function)

    def known(self):
        return len(self.still), len(self.own), sum(self.alignment.values())

    def look(self, function):
        """What each call in a function gives to the parameters of what it calls."""
        for _, form, found in function.matches():
            if form == "call":
                callee, lent = self.effects.lent(found)
                for number, word in lent:
                    self.lose((callee, number), function, word, [other for other, one in lent if other != number and self.same_root(function, one, word)])
                    self.alignment[callee, number] = min(self.alignment[callee, number], self.aligned(function, word))

    def same_root(self, function, one, other):
        roots = self.effects.roots[function.name]
        return roots.of(one) == roots.of(other)

    def lose(self, parameter, function, word, others):
        """others: the parameters that are lent memory of the same root by the same call."""
        roots = self.effects.roots[function.name]
        root = roots.of(word)
        # A variable that is not kept has no other name; a parameter has none where it has none in the caller.
        one_name = roots.kind[root] != FOUND and root not in self.effects.all_kept[function.name]
        caller = function.parameter(root) if roots.kind[root] == PARAMETER else None
        if not one_name or caller and caller not in self.still or any((parameter[0], other) in self.effects.touched for other in others):
            self.still.discard(parameter)
        if not one_name or caller and caller not in self.own or others:
            self.own.discard(parameter)

    def aligned(self, function, word):
        """The alignment that a pointer is known to have."""
        roots = self.effects.roots[function.name]
        root, offset = roots.at[word]
        if offset is None or roots.kind[root] == FOUND:
            return 1
        base = self.alignment[function.parameter(root)] if roots.kind[root] == PARAMETER else function.variables()[root][1]
        return min(base, offset & -offset or 8)
