"""A set for a report's page: its tree, and its bytes with those at fault marked."""
import html

from fields import entries_of
from lent import SERIAL
from text import STRING, cut, descriptor_line, string_text
from values import language_words


def body_lines(entry):
    """What a body says, a line for each of its descriptors: where it begins, its length, and words."""
    if entry.kind == STRING and entry.index == 0:
        languages = [int.from_bytes(entry.body[at : at + 2], "little") for at in range(2, len(entry.body) - 1, 2)]
        return [(entry.offset, len(entry.body), "languages " + ", ".join(map(language_words, languages)))]
    if entry.kind == STRING:
        return [(entry.offset, len(entry.body), string_text(entry.body[: len(entry.body) // 2 * 2]))]
    at, lines = entry.offset, []
    for descriptor in cut(entry.body):
        lines.append((at, len(descriptor), descriptor_line(descriptor, in_words=True)))
        at += len(descriptor)
    return lines


def marked(words, at_fault):
    return f"<mark>{html.escape(words)}</mark>" if at_fault else html.escape(words)


def tree(data, places):
    """The entries and descriptors of a set; those that have a byte of `places` are marked."""
    items = []
    for entry in entries_of(data):
        head = f"entry {entry.number}: type {entry.kind}, index {entry.index}, language {language_words(entry.language)}, bytes {entry.offset} to {entry.offset + entry.length - 1}"
        inner = "".join(f"<li>{marked(f'{at}: {words}', any(at <= place < at + size for place in places))}</li>" for at, size, words in body_lines(entry))
        items.append(f"<li>{marked(head, any(entry.at <= place < entry.at + 8 for place in places))}<ul class=tree>{inner}</ul></li>")
    return f"<ul class=tree>{''.join(items)}</ul>" if items else ""


def hexadecimal_rows(data, places):
    rows = []
    for start in range(0, len(data), 16):
        cells = [f"<mark>{byte:02X}</mark>" if start + at in places else f"{byte:02X}" for at, byte in enumerate(data[start : start + 16])]
        rows.append(f"{start:5}  {' '.join(cells)}")
    return "<pre>" + "\n".join(rows) + "</pre>"


def set_page(data, places):
    """A set, and where it is at fault."""
    return f"{tree(data, places)}<details{' open' * bool(places)}><summary>{len(data)} bytes</summary>{hexadecimal_rows(data, places)}</details>"


def sets_page(lent, faults):
    """All that is lent: each set under its name where there are two, and the serial block."""
    places = {block: {fault.place for fault in faults if fault.block == block} for block in (0, 1, SERIAL)}
    named = len(lent.sets) > 1
    sets = "".join((f"<p>{lent.name_of(block)[4:].capitalize()}</p>" if named else "") + set_page(data, places[block]) for block, data in enumerate(lent.sets))
    return sets + (f"<p>Serial block</p>{hexadecimal_rows(lent.serial, places[SERIAL])}" if lent.serial else "")
