"""The module for one object of a board's archive, made small: only what its exports call, without needless copies, with marks where variables are needed, with
lengths and indices of 32 bits, with constant tables, and with what is compiled into its callers and what is not (inlining.txt).
"""
import glob, hashlib, os, re

import bounds
from functions import put_together, reached, take_apart
from kit import FOLDER, read, write
from layout import Layout
from lifetimes import DECLARED, with_lifetimes
from module import Unexpected, audit, retargeted
from narrow import Narrowing
from plain import without_waste
from promises import with_promises
from tables import with_tables

HERE = os.path.dirname(os.path.abspath(__file__))
LIST = os.path.join(HERE, "inlining.txt")
# Small, not quick, unless the list says otherwise.
USUAL = "optsize"
WORDS = {"usual": USUAL, "called": "optsize noinline", "inside": "optsize alwaysinline", "quick": "", "quick-called": "noinline", "least": "optsize minsize",
         "least-called": "optsize minsize noinline"}
# Beside one of these: no part of it becomes a function of its own.
WHOLE, WHOLE_WORD = "whole", '"nooutline"'


def small(text, prototypes, judged=True, reasons=None):
    """The text for these exports; judged=False leaves out the audits of numbers and slots, for tests. Counts by reason are added to `reasons`."""
    functions, before, behind = take_apart(retargeted(text))
    functions = reached(functions, [prototype.name for prototype in prototypes])
    without_waste(functions)
    plain = put_together(functions, before, behind)
    audit(plain)
    layout = Layout(plain, judged).run()
    addresses = bounds.judge(functions, layout, prototypes, reasons) if judged else set()
    with_promises(functions, prototypes)
    with_lifetimes(functions)
    narrowing = Narrowing(layout, addresses)
    for function in functions.values():
        narrowing.function(function)
    return put_together(functions, before + with_tables(functions) + "\n", behind + DECLARED)


def kept(text, prototypes, name):
    """The same, made again only if the module, the exports or a program here has changed."""
    sources = [read(path) for path in sorted(glob.glob(os.path.join(HERE, "*.py")))]
    key = "; " + hashlib.sha256("\n".join([text, *(str(vars(prototype)) for prototype in prototypes), *sources]).encode()).hexdigest() + "\n"
    path = os.path.join(FOLDER, "small", f"{name}.ll")
    if not os.path.exists(path) or not read(path).startswith(key):
        os.makedirs(os.path.dirname(path), exist_ok=True)
        write(path, key + small(text, prototypes))
    return read(path)


# ---- inlining by function
def inlining(name, target, path=LIST):
    """Function -> words of the list, for an object and a processor: the object's part of the list, and then the processor's own."""
    found, part = {}, None
    for line in read(path).splitlines():
        if one := re.match(r"\[(\w+)((?: \w+)*)\]$", line):
            part = one[1] == name and (not one[2] or target in one[2].split())
        elif part and line and not line.startswith("#"):
            word, function = line.split(" ", 1)
            if word not in (*WORDS, WHOLE):
                raise Unexpected(f"{path}: {word} is none of {', '.join(WORDS)}, {WHOLE}")
            before, _, whole = found.get(function, "usual").partition(" ")
            found[function] = f"{before} {WHOLE}" if word == WHOLE else f"{word} {whole}".strip()
    return found


def lines(function, words):
    """The list's lines of a function."""
    return [f"{word} {function}" for word in words.split()]


def inlined(text, chosen):
    """The text where each function says how it is compiled; and the list's functions that the text does not have."""
    groups = {words: f"#{10 + number}" for number, words in enumerate(dict.fromkeys(chosen.values()))}
    left = dict(chosen)

    def changed(found):
        words = left.pop(found[2].strip('"'), None)
        return found[1] + (groups[words] if words else "#0") + " {"

    text = re.sub(r'^(define [^\n@]*@("[^"\n]+"|[\w.]+)\([^\n]*\) )#0 \{', changed, text, flags=re.M)
    text = text.replace("attributes #0 = { nounwind", f"attributes #0 = {{ nounwind {USUAL}")
    said = {words: f"{WORDS[words.split()[0]]} {WHOLE_WORD if WHOLE in words.split() else ''}" for words in groups}
    return text + "".join(f"attributes {group} = {{ nounwind {said[words]} }}\n" for words, group in groups.items()), sorted(left)
