"""Marks in the module's text where a variable's bytes are needed, so that the compiler lets variables that are never needed together share a place.

A variable is needed from the first line that touches it to the last, on every path: before a line if some path leads there from a line that writes it, and some path
leads on to one that reads it. Where a line touches it and it was not needed before, it begins; where it is needed at no line that follows, it ends. A variable
whose address is kept has no marks.
"""
from functions import Effects, successors
from module import FORMS, MARKS

START, END = MARKS
DECLARED = "".join(f"declare void @{mark}(ptr captures(none))\n" for mark in MARKS)


def spread(starts, next_lines):
    """The lines that can be reached from these."""
    found, todo = set(starts), list(starts)
    while todo:
        for line in next_lines[todo.pop()]:
            if line not in found:
                found.add(line)
                todo.append(line)
    return found


def mark(function, effects):
    next_lines = successors(function.lines)
    previous = [[] for _ in function.lines]
    for line, after in enumerate(next_lines):
        for one in after:
            previous[one].append(line)
    reads, writes = zip(*effects.lines(function))
    before, behind = [[] for _ in function.lines], [[] for _ in function.lines]
    for word in function.variables().keys() - effects.kept(function):
        readers = [at for at, words in enumerate(reads) if word in words]
        writers = [at for at, words in enumerate(writes) if word in words]
        touched = {*readers, *writers}
        needed = spread(readers, previous) & spread([after for at in writers for after in next_lines[at]], next_lines)
        for at in range(len(function.lines)):
            if at in touched and at not in needed:
                before[at].append(f"call void @{START}(ptr {word})")
            ends = at in touched and next_lines[at] and needed.isdisjoint(next_lines[at])
            if ends or FORMS["label"].match(function.lines[at]) and at not in needed and any(one in needed or one in touched for one in previous[at]):
                behind[at].append(f"call void @{END}(ptr {word})")
    function.lines = [one for at, line in enumerate(function.lines) for one in (*sorted(before[at]), line, *sorted(behind[at]))]


def with_lifetimes(functions):
    effects = Effects(functions)
    for function in functions.values():
        mark(function, effects)
