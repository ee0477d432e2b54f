#!/usr/bin/env python3
"""imports: names that a file of crates/ imports and does not use

  imports [CRATE..]            prints them, with file and line; exit status 1 if there are any
  imports --remove [CRATE..]   takes them out of their files

In antt a name is used where it stands as a word outside the `use` lines and comments: not as a field, `x.name`, nor in front of `=` in a record. Of an
operator, `◌≡◌`, each part must stand there. What `pub use` brings is passed on. In Rattle a `ghost use` serves the contracts and ghost fields, any other the code.
"""
import os, re, sys

from shared import TOP

CRATES = os.path.join(TOP, "crates")
USE = re.compile(r"(?P<kind>ghost |unfoldable )?(?P<passed>pub )?use (?P<path>[^\s{]+?)(?:(?P<group>\.|::)\{(?P<names>[^{}]*)\})?(?: as (?P<here>\S+?))?(?P<end>;?)$")
WORD = re.compile(r"[^\s(){}.;,@\"«»⌜⌝⟦⟧]+")
FIELD = re.compile(r"(?<=[^\s({;,])\.[^\s(){}.;,]+|(?<=[{;] )[^\s(){}.;,]+(?= = )")
COMMENT = re.compile(r"(?:^|(?<=\s))(?:--|//).*", re.MULTILINE)
CONTRACT = re.compile(r"^ +(?:requires|ensures|(?:pub )?ghost)\b.*(?:\n {8}.*)*", re.MULTILINE)


def here(name, use):
    """How `a`, `N.a` or `a as b` is called in the file that imports it, and Rattle's `self` of a path."""
    return re.split(r" as |\.|::", use["path"] if name == "self" and use["group"] == "::" else name)[-1]


def is_trait(name, use):
    """What std may name for its methods alone: the check itself tells where it does not (rt tidy)."""
    return not use["kind"] and use["path"].startswith("std::") and name[:1].isupper()


def words(text):
    return set(WORD.findall(FIELD.sub("", text)))


def is_used(name, there):
    return name in there or "◌" in name and set(filter(None, name.split("◌"))) <= there


class Imports:
    """A file's lines, and the words of it that a `use` line may serve."""

    def __init__(self, path):
        with open(path, encoding="utf-8") as file:
            self.lines = file.read().split("\n")
        self.path = path
        body = COMMENT.sub("", "\n".join(line for line in self.lines if not USE.match(line)))
        if path.endswith(".antt"):
            self.ghost = self.code = words(body)
        else:
            self.ghost = words("\n".join(CONTRACT.findall(body)))
            self.code = set(re.findall(r"\w+", CONTRACT.sub("", body)))

    def unused(self):
        """The number of each `use` line that brings something unused, what it brings and what of it is used."""
        for number, line in enumerate(self.lines):
            use = USE.match(line)
            if not use or use["passed"]:
                continue
            there = self.ghost if use["kind"] else self.code
            names = use["names"].split(", ") if use["names"] else [use["here"] or re.split(r"\.|::", use["path"])[-1]]
            used = [name for name in names if is_used(here(name, use), there) or is_trait(name, use)]
            if used != names:
                yield number, names, used

    def remove(self):
        for number, _, used in reversed(list(self.unused())):
            use = USE.match(self.lines[number])
            self.lines[number : number + 1] = [f"{use['kind'] or ''}use {use['path']}{use['group']}{{{', '.join(used)}}}{use['end']}"] if used else []
        with open(self.path, "w", encoding="utf-8") as file:
            file.write("\n".join(self.lines))


def files(crates=()):
    for crate in crates or sorted(os.listdir(CRATES)):
        for folder in ("specs", "src", "proofs"):
            for place, _, names in os.walk(os.path.join(CRATES, crate, folder)):
                yield from (os.path.join(place, name) for name in sorted(names) if name.endswith((".rt", ".antt")))


def unused(crates=()):
    for path in files(crates):
        for number, names, used in Imports(path).unused():
            yield f"{os.path.relpath(path, TOP)}:{number + 1}: imports {', '.join(name for name in names if name not in used)} and does not use it"


def main(words):
    if words[:1] == ["--remove"]:
        for path in files(words[1:]):
            found = Imports(path)
            if list(found.unused()):
                found.remove()
        return 0
    found = list(unused(words))
    print("\n".join([*found, f"imports: {len(found)} lines"]))
    return 1 if found else 0


if __name__ == "__main__":
    sys.exit(main(sys.argv[1:]))
