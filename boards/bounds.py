"""Why 32 bits hold each 64-bit value of the module made small.

Each number has an upper bound, found by the rules below. Where a number comes from several places (a parameter, a result, memory, a variable where paths meet) its
bound is the largest that comes there; these bounds grow from nothing until no rule raises one. So they hold at the first step of every run, and at each further
step if they held before: what a step gives is within its bound if what it takes is. A value whose bound is 2^32 or more stops the build.

Three things are taken from outside. A length that C lends is below 2^31: no object in C is longer than PTRDIFF_MAX. No sum, difference or product goes beyond its
type or below 0: the toolchain has proved that of each and does not say so in the module, so plain.py marks them `nuw`. And a slice, which is a pointer with a 64-bit
length right behind it, lies within what was lent: it has proved that too.
"""
import re
from collections import Counter

from functions import Effects, callee_and_values
from module import COPY, INTRINSICS, MARKS, SLOT, WIDTHS, Unexpected
from values import CHANGE, LOST, NUMBER, Values

LIMIT = 1 << 32
LONGEST = (1 << 31) - 1
# Where numbers from several places come together a bound is one of these, so that it grows a few times at most.
STAIRS = (1, 255, (1 << 16) - 1, (1 << 20) - 1, LONGEST, LONGEST + (1 << 16), LIMIT - 1, (1 << 64) - 1)
BITS = {kind: 8 * width if kind != "i1" else 1 for kind, width in WIDTHS.items()}


def most(kind):
    return (1 << BITS[kind]) - 1


def least(*bounds):
    """The least of what is known; None is nothing known."""
    found = [bound for bound in bounds if bound is not None]
    return min(found) if found else None


class Bounds:
    def __init__(self, functions, layout, prototypes):
        self.functions, self.layout = functions, layout
        effects = Effects(functions)
        self.values = {name: Values(function, effects) for name, function in functions.items()}
        self.lent = {(one.name, number): LONGEST if word.endswith("length") else LIMIT - 1 for one in prototypes for number, (kind, word) in enumerate(one.parameters) if kind == "size_t"}
        self.find_fields()
        self.leave_unread([(one.name, word) for one in prototypes for _, word in functions[one.name].pointers()])
        self.table, self.memo, self.reasons = {}, {}, Counter()

    # ---- memory: 64-bit numbers in the same bytes, or in copies of them, are one field
    def find_fields(self):
        self.field = {}
        wide = {(block, start) for block, starts in self.layout.slots.items() for start in starts if ("wide", 0) in self.layout.memory.uses[block][start]}
        beside = {place: set() for place in wide}
        for (block, start), (other, begin), length in self.layout.memory.links:
            for offset in self.layout.slots.get(block, ()):
                if start <= offset < start + length and (block, offset) in wide:
                    one, two = (block, offset), (other, offset - start + begin)
                    beside[one].add(two)
                    beside.setdefault(two, set()).add(one)
        for place in beside:
            if place not in self.field:
                self.field[place], todo = place, [place]
                while todo:
                    for one in beside[todo.pop()] - self.field.keys():
                        self.field[one] = place
                        todo.append(one)

    def leave_unread(self, lent):
        """Lengths in memory that C lends (a part's) are written and never read: what stands there before has no bound."""
        found, todo = set(lent), list(lent)
        while todo:
            block = todo.pop()
            todo += (new := {parameter for (one, _), parameter in self.layout.lent if one == block} - found)
            found |= new
        for name, values in self.values.items():
            places = self.layout.all_places[name]
            for at, form, match in values.function.matches():
                read = match[3] if form == "load" and match[2] == "i64" else None
                if form == "call" and (copied := callee_and_values(match))[0] == COPY and self.layout.within(places[copied[1][1]], int(copied[1][2])):
                    read = copied[1][1]
                if read and places[read][0] in found:
                    raise Unexpected(f"a length that C has not lent as one, in {name}: {values.function.lines[at]}")

    def field_of(self, name, word):
        return self.field[self.layout.all_places[name][word]]

    # ---- a value's bound where it is made
    def bound(self, name, value):
        """The bound of a value, wherever it stands."""
        value = self.values[name].same(value)
        if isinstance(value, tuple):
            return self.table.get((name, *value), 0)
        if not value.startswith("%"):
            return {"true": 1, "false": 0}[value] if value in ("true", "false") else int(value) % (1 << 64)
        if (name, value) not in self.memo:
            self.memo[name, value] = self.made(name, value)[0]
        return self.memo[name, value]

    def made(self, name, value):
        """(bound, reason) by the line that makes the value."""
        values, line = self.values[name], self.values[name].line(value)
        if not line:
            return self.parameter(name, values.numbers.index(value))
        for rule in (self.changed, self.counted, self.loaded, self.given_back):
            if found := rule(name, value, line):
                return found
        raise Unexpected(f"a value that no rule knows, in {name}: {line}")

    def parameter(self, name, number):
        """What C lends is bounded by its type; any other parameter by what its calls hand in."""
        kind = self.functions[name].parameters[number][0]
        if self.functions[name].exported:
            if kind != "i64":
                return most(kind), "from a narrower number"
            return self.lent[name, number], "a length that was lent" if self.lent[name, number] == LONGEST else "a size_t that was lent"
        return min(self.table.get((name, number), 0), most(kind)), "handed in by calls"

    def changed(self, name, value, line):
        """A change of width keeps the number, or its low bits."""
        if not (found := CHANGE.match(line)):
            return None
        _, how, kind, source, new = found.groups()
        return min(self.at(name, source, self.block(name, value)), most(kind), most(new)), "from a narrower number" if how == "zext" else "its low bits"

    def counted(self, name, value, line):
        """Arithmetic, operation by operation; operands are bounded by what is known where the line stands."""
        if not (found := NUMBER.match(line)):
            return None
        _, how, flags, kind, one, two = found.groups()
        if how == "icmp":
            return 1, "a comparison"
        label = self.block(name, value)
        first, second = min(self.at(name, one, label), most(kind)), min(self.at(name, two, label), most(kind))
        bound, reason = getattr(self, f"by_{how}")(first, second, "nuw" in flags)
        if how in ("add", "mul") and bound >= LIMIT:
            bound, reason = least(bound, self.used_at_once(name, value)), "proved by what it is used for at once"
        return min(bound, most(kind)), reason

    # A sum, a product and a shift to the left are as large as their parts make them.
    def by_add(self, first, second, proved):
        return first + second, "a sum below 2^32"

    def by_mul(self, first, second, proved):
        return first * second, "a product below 2^32"

    def by_shl(self, first, second, proved):
        return first << min(second, 64), "a product below 2^32"

    def by_sub(self, first, second, proved):
        """Marked by the toolchain as never below 0, a difference is at most what is taken from."""
        return (first if proved else most("i64")), "a difference, proved not below 0"

    def is_part(self, name, value, begin):
        """Whether a difference is the length of a part of a slice: in the same block a pointer goes on by what is taken away, and no element is looked at there (which
        would be inbounds). The part ends where the slice does or before, and what a slice points to was lent."""
        values = self.values[name]
        label = self.block(name, value)
        steps = (found for at, form, found in values.function.matches() if form == "step" and values.block_of[at] == label and "inbounds" not in found[0])
        return begin.startswith("%") and any(values.same(found[3]) == values.same(begin) for found in steps)

    # A quotient is at most what is divided, and 0 is never divided by; a remainder is below the divisor too.
    def by_udiv(self, first, second, proved):
        return first, "a quotient"

    def by_urem(self, first, second, proved):
        return min(first, max(0, second - 1)), "a remainder"

    def by_lshr(self, first, second, proved):
        return first, "a quotient"

    def by_and(self, first, second, proved):
        return min(first, second), "bits of such a number"

    def by_or(self, first, second, proved):
        """No bit above the highest of either."""
        return (1 << max(first, second).bit_length()) - 1, "bits of such numbers"

    by_xor = by_or

    def used_at_once(self, name, value):
        """In the same block, with no call between, the value is taken away from a number: then it is at most that number. Or it is where a part of a slice ends: then
        it is at most as long as the slice."""
        values = self.values[name]
        at = values.defined[value]
        for line in values.function.lines[at + 1 :]:
            if re.search(r"\bcall\b", line) or line.startswith(("br ", "switch ", "ret ", "unreachable")):
                return None
            found = NUMBER.match(line)
            if found and found[2] == "sub" and "nuw" in found[3]:
                if values.same(found[6]) == value:
                    return self.at(name, found[5], values.block_of[at])
                if values.same(found[5]) == value and self.is_part(name, found[1], found[6]):
                    return LONGEST
        return None

    def loaded(self, name, value, line):
        """Memory holds what was stored there; a narrower number what its type holds."""
        found = re.match(r"%\w+ = load (\w+), ptr (%\w+)", line)
        if not found:
            return None
        if found[1] != "i64":
            return most(found[1]), "from a narrower number"
        return self.table.get(self.field_of(name, found[2]), 0), "loaded: only such numbers are stored there"

    def given_back(self, name, value, line):
        """A function gives back what it returns."""
        found = re.match(r'%\w+ = call (?:noundef |zeroext )*(\w+) @("[^"]+"|[\w.]+)\(', line)
        return found and (min(self.table.get(("result", found[2].strip('"')), 0), most(found[1])), "given back by a function")

    # ---- a value's bound where it is used: what was compared on the way counts
    def block(self, name, value):
        values = self.values[name]
        return values.block_of[values.defined[value]]

    def at(self, name, value, label, more=()):
        """The bound of a value in a block, or behind it where `more` is known."""
        key = (name, value, label, *more)
        if key not in self.memo:
            same = self.values[name].same(value)
            self.memo[key] = least(self.bound(name, value), *(self.implied(name, same, *one) for one in [*self.values[name].known(label), *more]))
        return self.memo[key]

    def implied(self, name, value, condition, holds):
        """The bound that a condition gives to a value if it holds (or does not), or None."""
        values = self.values[name]
        condition = values.same(condition)
        line = values.line(condition) if not isinstance(condition, tuple) else ""
        if found := CHANGE.match(line):
            return self.implied(name, value, found[4], holds)
        if found := NUMBER.match(line):
            if found[2] == "icmp":
                return self.compared(name, value, condition, found, holds)
            if found[2] == "xor" and found[6] == "true":
                return self.implied(name, value, found[5], not holds)
            if found[2] in ("and", "or") and found[4] in ("i1", "i8"):
                parts = [self.implied(name, value, part, holds) for part in found.groups()[4:]]
                # Both hold, or neither does: the lower bound; otherwise one of them, which one is not known.
                return least(*parts) if (found[2] == "and") == holds else None if None in parts else max(parts)
        if holds and " = call " in line:
            return self.asked(name, value, line)
        return None

    def compared(self, name, value, condition, found, holds):
        """A number that is below another, at most another or equal to it is bounded by the other's bound."""
        how, (one, two), label = found[3].strip(), found.groups()[4:], self.block(name, condition)
        if not holds:
            how, one, two = {"ult": ("ule", two, one), "ule": ("ult", two, one), "ne": ("eq", one, two)}.get(how, (None, one, two))
        if how == "eq" and self.values[name].same(two) == value:
            one, two = two, one
        added = self.added(name, one, value) if how in ("ult", "ule", "eq") else None
        return None if added is None else max(0, self.at(name, two, label) - (how == "ult") - added)

    def added(self, name, sum_, value):
        """The constant that a sum has beside the value: 0 if it is the value itself, None if it is something else."""
        values = self.values[name]
        same = values.same(sum_)
        found = NUMBER.match(values.line(same)) if not isinstance(same, tuple) else None
        if found and found[2] == "add" and "nuw" in found[3] and found[6].isdigit() and values.same(found[5]) == value:
            return int(found[6])
        return 0 if same == value else None

    def asked(self, name, value, line):
        """A function that gave back true has compared its parameter, or was handed a comparison that held: the largest bound over its returns."""
        found = re.match(r'%\w+ = call (?:noundef |zeroext )*i1 @("[^"]+"|[\w.]+)\((.*)\)', line)
        if not found:
            return None
        callee, words, bounds = found[1].strip('"'), [word.split() for word in found[2].split(", ")], []
        values = self.values[callee]
        returns = [(one[1], values.block_of[at]) for at, line in enumerate(values.function.lines) if (one := re.match(r"ret i1 (\S+)$", line))]
        # What is known at each return that may give back true.
        true = [[*values.known(label), (result, True)] for result, label in returns if self.bound(callee, result)]
        for parameter, (kind, word) in zip(values.numbers, words):
            if self.values[name].same(word) == value:
                said = [least(*(self.implied(callee, parameter, *one) for one in known)) for known in true]
                bounds.append(None if None in said else max(said, default=0))
            elif kind == "i1" and all(any(self.demands(callee, parameter, *one) for one in known) for known in true):
                bounds.append(self.implied(name, value, word, True))
        return least(*bounds)

    def demands(self, name, parameter, condition, holds):
        """Whether a condition holds only if the parameter does."""
        condition = self.values[name].same(condition)
        if condition == parameter:
            return holds
        line = self.values[name].line(condition) if not isinstance(condition, tuple) else ""
        if found := CHANGE.match(line):
            return self.demands(name, parameter, found[4], holds)
        found = NUMBER.match(line)
        return bool(found) and found[2] == "and" and holds and any(self.demands(name, parameter, part, True) for part in found.groups()[4:])

    # ---- what comes where
    def arrivals(self):
        """Every place where a number comes from several, and the bound of one that comes: (place, bound)."""
        for name, values in self.values.items():
            for at, form, found in values.function.matches():
                if form == "store" and found[1] == "i64":
                    yield self.stored(name, found[2], self.layout.all_places[name][found[3]], values.block_of[at])
                elif form == "call":
                    yield from self.handed_in(name, found, values.block_of[at])
                elif form == "flow" and (one := re.match(r"ret i\d+ (\S+)$", values.function.lines[at])):
                    yield ("result", name), min(self.at(name, one[1], values.block_of[at]), most(values.function.result))
            for version in values.meetings:
                yield (name, *version), self.met(name, version)

    def stored(self, name, value, place, label):
        """A length that is stored right behind a pointer is a slice's."""
        block, offset = place
        bound = self.at(name, value, label)
        return self.field.get(place), min(bound, LONGEST) if ("pointer", 0) in self.layout.memory.uses[block].get(offset - SLOT, ()) else bound

    def handed_in(self, name, found, label):
        callee, words = callee_and_values(found)
        if callee not in INTRINSICS and callee not in MARKS:
            if self.functions[callee].exported:
                raise Unexpected(f"a call of what C calls, in {name}: {found[0]}")
            for number, ((kind, _), word) in enumerate(zip(self.functions[callee].parameters, words)):
                if kind != "ptr":
                    yield (callee, number), min(self.at(name, word, label), most(kind))

    def met(self, name, version):
        """The largest of what meets, each bounded by what is known on its way."""
        values, (_, label, slot) = self.values[name], version
        bound = 0
        for source, one in values.meeting(version):
            counter = self.counter(name, version, source, one)
            if one == LOST:
                came = self.held(name, slot)
            else:
                came = counter if counter is not None else self.at(name, one, source, tuple(values.edge(source, label)))
            bound = max(bound, came)
        return min(bound, most(slot[2]))

    def held(self, name, slot):
        """What a variable may hold where it is not known which line wrote it: whatever is stored there anywhere."""
        root, offset, kind = slot
        return self.table.get(self.field[(name, root), offset], 0) if kind == "i64" else most(kind)

    def counter(self, name, version, source, one):
        """A counter that begins with a constant and grows by a constant until it is equal to a third, which it meets: it stays below."""
        values = self.values[name]
        step, goes_on = NUMBER.match(values.line(one)) if not isinstance(one, tuple) else None, values.edge(source, version[1])
        test = NUMBER.match(values.line(goes_on[0][0])) if goes_on else None
        if not step or step[2] != "add" or values.same(step[5]) != version or not step[6].isdigit() or not test or test[3].strip() != "eq" or goes_on[0][1]:
            return None
        begins = [other for at, other in values.meeting(version) if other != one]
        if values.same(test[5]) != one or not test[6].isdigit() or not all(str(other).isdigit() for other in begins):
            return None
        end, each = int(test[6]), int(step[6])
        return end - each if all(int(other) < end and (end - int(other)) % each == 0 for other in begins) else None

    # ---- until nothing grows
    def run(self):
        grown = True
        while grown:
            self.memo, grown = {}, {}
            for place, bound in self.arrivals():
                if place is not None and bound > self.table.get(place, 0):
                    grown[place] = max(grown.get(place, 0), next(stair for stair in STAIRS if stair >= bound))
            self.table.update(grown)
        return self

    # ---- the judgement
    def judge(self):
        """The values of which only the low 32 bits are looked at; raises Unexpected with one that no reason places, a number that is computed before one that is handed on."""
        addresses, unplaced = set(), []
        for name, values in self.values.items():
            self.hold_constants(name)
            for value in self.wide_values(name):
                bound, reason = self.bound(name, value), self.made(name, value)[1]
                if bound >= LIMIT and self.is_address(values, value):
                    addresses.add((name, value))
                    reason = "an offset of an address, which has 32 bits"
                elif bound >= LIMIT:
                    line = values.line(value)
                    unplaced.append((not NUMBER.match(line), f"a number that 32 bits might not hold (up to {bound:,}), in {name}: {line or value}"))
                self.reasons[reason] += 1
        if unplaced:
            raise Unexpected(min(unplaced, key=lambda one: one[0])[1])
        return addresses

    def hold_constants(self, name):
        """Constants of 64 bits are below 2^32 too."""
        for line in self.functions[name].lines:
            found = NUMBER.match(line)
            words = [*re.findall(r"\bi64 (-?\d+)", line), *(found.groups()[4:] if found and found[4] == "i64" else ())]
            if any(re.match(r"-?\d", word) and not 0 <= int(word) < LIMIT for word in words):
                raise Unexpected(f"a constant that 32 bits do not hold, in {name}: {line}")

    def wide_values(self, name):
        yield from (word for kind, word in self.functions[name].parameters if kind == "i64")
        for line in self.functions[name].lines:
            found = re.match(r"(%\w+) = (?:(?!icmp|alloca)\w+(?: \w+)* i64\b(?!.* to )|.* to i64$)", line)
            if found:
                yield found[1]

    @staticmethod
    def is_address(values, value):
        """Every use of it, and of what a load gives back of it, is a step from a pointer, which takes 32 bits of it on such a processor anyway."""
        same = values.same(value)
        words = {word for word in values.defined if values.same(word) == same} | {same}
        for line in values.function.lines:
            used = {word for word in re.findall(r"%\w+", re.sub(r"^%\w+ = ", "", line))} & words
            stored = re.match(r"store i64 (%\w+), ptr (%\w+), align \d+$", line)
            if used and not re.match(r"%\w+ = getelementptr (?:inbounds |nuw )*i8, ptr %\w+, i64 %\w+$", line) and not (stored and stored[2] in values.function.variables()):
                return False
        return True


def judge(functions, layout, prototypes, reasons=None):
    """The values of which only the low 32 bits are looked at. Counts by reason are added to `reasons`."""
    bounds = Bounds(functions, layout, prototypes).run()
    addresses = bounds.judge()
    if reasons is not None:
        reasons.update(bounds.reasons)
    return addresses
