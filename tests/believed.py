"""What must be believed: the definitions that statements rest on, by following names through crates/*/specs

A statement is the `ensures` of an exported function (crates/board/src). What it names is followed through the `use` lines of its file to the
definition, and from there on; of a file only what is really named counts, and a type that code declares counts as its declaration. A
variable that has a definition's name counts as that: so nothing is left out.
"""
import os, re, textwrap

from shared import TOP

CRATES = os.path.join(TOP, "crates")
EXPORTS = os.path.join(CRATES, "board", "src")
MAKERS = "makers.rt"  # the exports of a bench computer; those of the other files run on a board

WORD = re.compile(r"[^\s(){}\[\].;,λ]+|[.;{}(),λ]")
USE = re.compile(r"\s*(?:ghost |unfoldable )?(?:pub )?use\s+(\S+?)(?:\.\{(.*)\})?(?: as (\w+))?;?\s*$")
MODULE = re.compile(r"\s*module\s+\S+(.*)where\s*$")
ITEM = re.compile(r"\s*((?:(?:pub|abbrev|unfoldable)\s+)*)(?:(record|data)\s+(\S+)|([^\s:(){},.]+(?:\s+[^\s:(){},.]+)*)\s+:\s)")
FIELDS = re.compile(r"\s*(?:pub )?([^\s:(){},.]+(?:\s+[^\s:(){},.]+)*)\s+:\s")


def read(path):
    with open(path, encoding="utf-8") as file:
        return file.read()


def bare(name):
    """An operator without the places of its operands."""
    return name.strip("◌") or name


def without_comments(text):
    return re.sub(r"(^|(?<=\s))--.*", "", text)


def names_used(line):
    """What a `use` line brings: the name here, the module, the name there; the name there is None for a whole module."""
    found = USE.match(line)
    if not found:
        return []
    module, names, alias = found.groups()
    if names is None:
        return [(alias or module.split(".")[-1], module, None)]
    pairs = [one.strip().split(" as ") for one in names.split(",")]
    return [(bare(pair[-1]), module, pair[0]) for pair in pairs]


class Item:
    """A definition, a record, a data type or a theorem."""

    def __init__(self, file, name, kind, line, around):
        self.file, self.name, self.kind = file, name, kind
        self.owns = set()  # constructors of a data type, fields of a record
        self.lines = [line]
        self.around = around  # the parameters of the modules that it stands in

    def signature(self):
        end = next((at for at, line in enumerate(self.lines[1:], 1) if re.match(rf"\s*({re.escape(self.name)}\s|unfolding\s)", line)), len(self.lines))
        return "\n".join(self.around + self.lines[:end])

    def text(self):
        return "\n".join(self.around + self.lines)


class File:
    """A file of specs: what it uses and what it defines."""

    def __init__(self, path):
        text = read(path)
        self.path, self.size = path, text.count("\n")
        self.first = re.match(r"(?:--.*\n)*", text)[0].replace("-- ", "").replace("\n", " ")
        self.uses, self.items = {}, {}
        self.parse(without_comments(text).split("\n"))

    def name(self):
        crate, folder, *rest = os.path.relpath(self.path, CRATES).split(os.sep)
        return "/".join([crate, *rest]).removesuffix(".antt")

    def parse(self, lines):
        modules, item, inside = [], None, None
        for line in lines:
            if not line.strip():
                continue
            if used := names_used(line):
                self.uses.update({here: (module, there) for here, module, there in used})
                continue
            indent = len(line) - len(line.lstrip())
            modules = [one for one in modules if one[0] < indent]
            if module := MODULE.match(line):
                modules.append((indent, module[1]))
                item = inside = None
                continue
            if inside is not None and indent > inside:
                item.lines.append(line)
                item.owns |= set(FIELDS.match(line)[1].split()) if FIELDS.match(line) else set()
                continue
            inside = None
            begins = ITEM.match(line) if indent == 2 * len(modules) else None
            if begins:
                kind = begins[2] or (begins[1].replace("pub", "").strip() or "theorem")
                names = [begins[3]] if begins[2] else begins[4].split()
                item = Item(self, names[0], kind, line, [text for _, text in modules])
                self.items.update({bare(name): item for name in names})
                inside = indent if begins[2] else None
            elif item:
                item.lines.append(line)

    def owner(self, constructor):
        return next((item for item in self.items.values() if item.kind == "data" and constructor in item.owns), None)


def all_files():
    found = {}
    for crate in sorted(os.listdir(CRATES)):
        folder = os.path.join(CRATES, crate, "specs")
        for place, _, names in os.walk(folder):
            for name in names:
                path = os.path.join(place, name)
                if name.endswith(".antt") and name != "Lib.antt":
                    found[crate, os.path.relpath(path, folder).removesuffix(".antt").replace(os.sep, ".")] = File(path)
    return found


def crate_and_rest(module):
    """Rattle.sets.specs.Opening: the crate and what stands behind `specs.`; nothing for the toolchain's own."""
    found = re.match(r"Rattle\.(\w+)\.specs\.(.*)$", module)
    return found.groups() if found and os.path.isdir(os.path.join(CRATES, found[1])) else None


def references(text):
    """The words of a text, without fields that are asked for or given."""
    words = [(found.group(), found.start()) for found in WORD.finditer(text)]
    for at, (word, start) in enumerate(words):
        last = words[at - 1] if at else ("", 0)
        behind = words[at + 1][0] if at + 1 < len(words) else ""
        is_field = last[0] == "." and last[1] == start - 1 and text[last[1] - 1 : last[1]] not in (" ", "\n", "(")
        if not is_field and not (behind == "=" and last[0] in ("{", ";")):
            yield word


class Believed:
    """What some statements rest on."""

    def __init__(self, files):
        self.files, self.items, self.types = files, {}, {}
        self.edges = {}  # a file's name: the files that it names

    def type_of(self, crate, path):
        parts = [part for part in path.split(".") if part != "TheVariants"]
        modules, name = parts[1:-1], parts[-1]
        source = os.path.join(CRATES, crate, "src", *(modules or ["lib"])) + ".rt"
        declared = re.search(rf"^(?:#\[[^\n]*\]\n)*(?:pub )?(?:struct|enum) {name}\b(?:[^\n{{]*;|.*?^\}})$", read(source), re.MULTILINE | re.DOTALL)
        self.types["::".join([crate, *modules, name])] = declared[0].count("\n") + 1

    def follow(self, module, name, at=None):
        place = crate_and_rest(module)
        if place is None:
            return
        if place[1].startswith("declared."):
            return self.type_of(*place)
        file = self.files[place]
        self.edges.setdefault(at, set()).add(file.name())
        item = file.items.get(bare(name)) or file.owner(name)
        if item is None:
            if name in file.uses:  # passed on by `pub use`
                return self.follow(*file.uses[name], file.name())
            raise SystemExit(f"papers: {module} has no {name}")
        self.believe(item, item.text())

    def believe(self, item, text):
        if id(item) in self.items:
            return
        self.items[id(item)] = item
        file = item.file
        for word in references(text):
            word = bare(word)
            if word in file.uses and file.uses[word][1]:
                self.follow(*file.uses[word], file.name())
            elif word in file.items:
                self.believe(file.items[word], file.items[word].text())
            elif owner := file.owner(word):
                self.believe(owner, owner.text())

    def reached(self):
        return {item.file.name(): item.file for item in self.items.values()}


def statements(wanted):
    """The names in the promises of the exports of some files, each with where it comes from."""
    for source in sorted(os.listdir(EXPORTS)):
        if not wanted(source):
            continue
        text = read(os.path.join(EXPORTS, source))
        uses = {here: (module, there) for line in text.split("\n") for here, module, there in names_used(line) if there}
        for promises in re.findall(r"^pub extern \"C\" fn hk_\w+.*?(^ +ensures\b.*?)^\{", text, re.MULTILINE | re.DOTALL):
            yield from (uses[bare(word)] for word in references(promises) if bare(word) in uses)


def rest_of_exports(files):
    """What a board's calls rest on, and what all calls do."""
    found = []
    for wanted in (lambda source: source != MAKERS, lambda source: True):
        believed = Believed(files)
        for module, name in statements(wanted):
            believed.follow(module, name)
        found.append(believed)
    return found


def in_reading_order(believed, names):
    """Crate by crate, and each file behind those that it names."""
    crates = [line.split(":")[0].split()[0] for line in read(os.path.join(TOP, "crates.txt")).split("\n") if re.match(r"\w+:", line)]
    order = []

    def visit(name):
        for other in sorted(believed.edges.get(name, set())):
            if other != name and other.split("/")[0] == name.split("/")[0]:
                visit(other)
        if name not in order:
            order.append(name)

    for name in sorted(names, key=lambda name: (crates.index(name.split("/")[0]), name)):
        visit(name)
    return [name for name in order if name in names]


def counted(files):
    """How many, their lines, and how many of these are neither blank nor a `use`."""
    said = sum(bool(line.strip()) and not USE.match(line) for file in files for line in read(file.path).split("\n"))
    return f"{len(files)} files, {sum(file.size for file in files):,} lines ({said:,} without blank lines and imports)"


def table(believed, names, types):
    reached = believed.reached()
    lines = ["| File | Lines | What it says |", "|---|---|---|"]
    for name in in_reading_order(believed, names):
        said = re.split(r"(?<=\w)[.:](?: |$)| \(document", reached[name].first)[0].strip(" .")
        lines.append(f"| `{name}` | {reached[name].size} | {said} |")
    files = [reached[name] for name in names]
    declared = f", and the declarations of {len(types)} types, {sum(types.values())} lines: " + ", ".join(f"`{name}`" for name in sorted(types)) if types else ""
    return "\n".join([*lines, "", *textwrap.wrap(f"{counted(files)}{declared}.", 120)])


HEADINGS = ("### For a board's calls", "### For the makers' calls, beyond these")


def lists(files):
    """The two lists of docs/TRACE.md, each under its heading."""
    board, everything = rest_of_exports(files)
    first, both = board.reached(), everything.reached()
    more = {name: size for name, size in everything.types.items() if name not in board.types}
    total = f"Together {counted(both.values())}."
    return {
        HEADINGS[0]: table(board, set(first), board.types),
        HEADINGS[1]: table(everything, set(both) - set(first), more) + "\n" + total,
    }
