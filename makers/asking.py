"""The makers' program, or the library in its harness, asked which rule sets break; and texts laid out as sets, with the line that each byte comes from."""
import os, re, subprocess, sys, tempfile

TOP = os.path.dirname(os.path.dirname(os.path.abspath(__file__)))
sys.path.insert(1, os.path.join(TOP, "tools"))
from command import CannotBeDone, write_file
from faults import byte_words, words_of
from fields import entry_at
from lent import ONE, SERIAL, SUPER_SET, TWO, Lent, told
from pairing import laid_out, mirrors
from pieces import a_set
from text import Mistake

MAKER = os.path.join(TOP, "target", "bin", "maker")
# What the makers' program is told of each kind, and the files that it reads.
PROGRAM_WORDS = {ONE: ["explain"], SUPER_SET: ["explain", "super"], TWO: ["explain", "pair"]}
PROGRAM_FILES = {ONE: ["set.bin"], SUPER_SET: ["set.bin"], TWO: ["full.bin", "high.bin"]}


def run_maker(words, directory):
    """What the program says, run where its files are."""
    if not os.path.exists(MAKER):
        raise CannotBeDone("the makers' program is not built: ./run builds it, and so does tools/products maker")
    return subprocess.run([os.path.join(TOP, "tools", "emulate"), MAKER, *words], cwd=directory, capture_output=True, text=True, check=True).stdout


def read_told(text):
    """The program's line as a fault; None where nothing is broken."""
    found = re.fullmatch(r"REFUSED (\d+) RULE (\d+) (?:BLOCK (\d) )?BYTE (\d+)\n", text)
    return told(int(found[1]), int(found[2]), int(found[4]), int(found[3] or 0)) if found else None


def ask(lent):
    """The library's answer, by the makers' program: a fault, or None where what is lent is accepted."""
    with tempfile.TemporaryDirectory() as directory:
        for name, data in zip([*PROGRAM_FILES[lent.kind], "unit.bin"], [*lent.sets, lent.serial]):
            write_file(os.path.join(directory, name), data)
        return read_told(run_maker(PROGRAM_WORDS[lent.kind], directory))


def asker(library):
    """The same by the library in its harness."""

    def ask_library(lent):
        if lent.kind == TWO:
            library.lend_two(*lent.sets, lent.serial)
            number, rule, block, place = library.two_explain()
            return told(number, rule, place, block)
        library.lend(*lent.sets, lent.serial)
        return told(*(library.super_explain() if lent.kind == SUPER_SET else library.explain()))

    return ask_library


class LaidOut:
    """Texts as the writer lays them out: what is lent, and the line of each of its bytes. Of a pair, types 6 and 7 are made here."""

    def __init__(self, texts, kind=ONE):
        self.texts, self.orders, sets = texts, [], []
        for at, text in enumerate(texts):
            entries = [*text.entries, *(mirrors(texts[1 - at].entries) if kind == TWO else [])]
            self.orders.append(sorted(range(len(entries)), key=lambda number: (entries[number][0], entries[number][2], entries[number][1])))
            ordered = [entries[number] for number in self.orders[-1]]
            sets.append(laid_out(ordered) if kind == TWO else a_set(*ordered))
        self.lent = Lent(kind, tuple(sets), one_serial(texts))

    def group_of(self, block, number):
        """The lines of an entry; none of one that was made here."""
        at = self.orders[block][number]
        return self.texts[block].groups[at] if at < len(self.texts[block].groups) else None

    def serial_line(self):
        """Which text has the serial number, and its line; without one, which device names it."""
        lines = [(at, text.serial_line) for at, text in enumerate(self.texts) if text.serial_line]
        return (lines or [(at, text.device_line()) for at, text in enumerate(self.texts)])[0]

    def line_of(self, fault):
        """Which text has the fault, and the line; no line for a fault of the whole."""
        if fault.block == SERIAL:
            return self.serial_line()
        data, order = self.lent.sets[fault.block], self.orders[fault.block]
        if fault.place < 4 + 8 * len(order):
            group = self.group_of(fault.block, (fault.place - 4) // 8) if fault.place >= 4 else None
            return fault.block, group and group[0]
        entry = entry_at(data, fault.place)
        group = self.group_of(fault.block, entry.number - 1)
        return fault.block, group and self.texts[fault.block].line_at(order[entry.number - 1], fault.place - entry.offset)

    def explain(self, names, fault):
        """A fault by rule, line and byte; `names` are the texts'."""
        words, (at, line) = words_of(self.lent, fault), self.line_of(fault)
        yield f"refused {fault.number}, rule {fault.rule}: {words.rule}"
        if line:
            yield f"    {names[at]}, line {line.number}: {line.text}"
        yield f"    {byte_words(words)}"
        if words.remark:
            yield f"    {words.remark}" + self.other_line(fault)

    def other_line(self, fault):
        """Of an entry that is there twice, the line of the first."""
        group = self.group_of(fault.block, (fault.place - 4) // 8 - 1) if fault.rule == 202 else None
        return f" (line {group[0].number})" if group else ""


def one_serial(texts):
    """The serial block of a text, or of two: it may stand in either, or in both."""
    serials = {text.serial for text in texts if text.serial}
    if len(serials) > 1:
        raise Mistake("the two texts have two serial numbers, and a unit has one")
    return serials.pop() if serials else b""


def faults_words(count, most):
    return f"{count} fault{'s' * (count > 1)} found" + (", and there may be more" if count >= most else "")
