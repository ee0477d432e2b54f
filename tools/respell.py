#!/usr/bin/env python3
"""Spells the repository's own definitions and lemmas as today's Rattle does: words in snake case.

usage: tools/respell.py [--names]      at the top of the repository, once, after the toolchain's own script
       --names: prints the old and new names, and which new ones were names before, and writes nothing

A word with a capital inside, as `isEndpoint`, becomes `is_endpoint`, each part between dashes for itself. Types, facts and
modules keep their capitals, and so do the names that chapter 9 gives to fields (`bLength`, `wMaxPacketSize`), which are
quoted as they stand there. Names of functions of src/ have no capital and stay. In papers only what stands in backticks
is respelled.
"""
import os, re, sys

WORD = re.compile(r"(?<![A-Za-z0-9_'])[A-Za-zα-ωΑ-Ω_][A-Za-zα-ωΑ-Ω0-9_'\-]*")
FIELD = re.compile(r"(?:b|bm|bcd|w|i|id)[A-Z][A-Za-z0-9]*(?:'s)?$")
CAMEL = re.compile(r"[a-zα-ω][a-z0-9']*(?:_[a-z0-9']+)*[A-Z]")
# Names of the toolchain's library that have a capital behind a line, as it spells them.
LIBRARY = {"uint_Tells", "uint_Makes", "uint_Lawful", "mut_Tells", "shr_Tells", "shr_slice_Tells", "mut_slice_Tells", "walk_Meets", "is_Within", "nothing_Seen"}
# Lemmas of the name that a definition gets now, in the files that name both: a lemma of its function's name ends in _lem.
LEMMAS = {"bodies_of": "", "kept_pieces": "", "no_end": "", "step_in": "", "in_use": "crates/laws/proofs/Same.antt", "by_index": "crates/enumeration/proofs/EveryPiece.antt"}


def respelled_part(part):
    if FIELD.match(part) or not CAMEL.match(part):
        return part
    return re.sub(r"(?<=[a-z0-9'])(?=[A-Z])|(?<=[A-Z])(?=[A-Z][a-z])", "_", part).lower()


def respelled(word):
    if word in LIBRARY:
        return word
    return "-".join(respelled_part(part) for part in word.split("-"))


def sources(top):
    for folder, inner, files in os.walk(os.path.join(top, "crates")):
        inner[:] = sorted(one for one in inner if one not in ("out", "data"))
        yield from (os.path.join(folder, one) for one in sorted(files) if one.endswith((".antt", ".rt", ".edit")))


def papers(top):
    yield os.path.join(top, "README.md")
    docs = os.path.join(top, "docs")
    yield from (os.path.join(docs, one) for one in sorted(os.listdir(docs)) if one.endswith(".md") and not one.startswith("PORT"))


def read(path):
    with open(path, encoding="utf-8", newline="") as file:
        return file.read()


def turned(text, path=""):
    lemmas = {name for name, where in LEMMAS.items() if path.endswith(where or ".antt")}
    return WORD.sub(lambda found: f"{found[0]}_lem" if found[0] in lemmas and text[found.start() - 1] != "." else respelled(found[0]), text)


def main():
    top = os.path.dirname(os.path.dirname(os.path.realpath(__file__)))
    texts = {path: read(path) for path in sources(top)}
    names = {word for text in texts.values() for word in WORD.findall(text)}
    if sys.argv[1:] == ["--names"]:
        for word in sorted(names):
            new = respelled(word)
            if new != word:
                print(word, new, "WAS A NAME" if new in names else "")
        return
    turned_papers = {path: re.sub(r"`[^`\n]*`", lambda found: turned(found[0]), read(path)) for path in papers(top)}
    for path, text in ({path: turned(text, path) for path, text in texts.items()} | turned_papers).items():
        if text != read(path):
            with open(path, "w", encoding="utf-8", newline="") as file:
                file.write(text)


if __name__ == "__main__":
    main()
