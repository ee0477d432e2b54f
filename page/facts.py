"""What the page knows of the repository, each from the one place where it is kept."""
import base64, hashlib, json, os, sys

TOP = os.path.dirname(os.path.dirname(os.path.abspath(__file__)))
sys.path[1:1] = [os.path.join(TOP, "bench")]
sys.dont_write_bytecode = True

import paths  # noqa: F401 (the bench's own folders)
import events, fields, packets, text, values, words
from rules import OTHER_LIMITS, RULES, asked_of

# The texts to start from, by kind: those of makers/ and bench/; a pair has two.
TEXTS = [
    ("one", "Bench set S", "makers/bench.txt"),
    ("one", "Serial port", "makers/serial-port.txt"),
    ("one", "Measuring instrument", "makers/instrument.txt"),
    ("one", "Keyboard-like instrument", "makers/keyboard.txt"),
    ("one", "Vendor interface", "makers/vendor.txt"),
    ("one", "Titrator", "makers/titrator.txt"),
    ("one", "Laboratory scale", "bench/sets/scale.txt"),
    ("two", "Titrator", "makers/titrator.txt", "makers/titrator-high.txt"),
    ("super", "Bench set S", "makers/bench-super.txt"),
]
# The sets to look at first: of some of these texts, and one that is refused.
EXAMPLES = ["Bench set S", "Titrator", "Laboratory scale"]
REFUSED = [("Balance of spring (refused)", "bench/sets/spring.bin")]


def read(name, mode="r"):
    with open(os.path.join(TOP, name), mode, **({} if "b" in mode else {"encoding": "utf-8"})) as file:
        return file.read()


def rules():
    """The rules of opening, by their numbers."""
    return [{"number": number, "group": number // 100, "rule": asks, "words": may} for number, (asks, may) in RULES.items()]


def words_for_values():
    """Each field that has words for its values, with them; of many the first and the last."""
    for line, known in values.VALUES.items():
        for field, words in known.items():
            names = list(words) if len(words) < 20 else [*list(words)[:2], "..", list(words)[-1]]
            yield f"    {line:15}{field}: {', '.join(names)}"
    yield from (f"    {field}: a number with its unit, as 100{unit}" for field, (unit, _) in values.UNITS.items())
    yield f"    {', '.join(values.BITS)}: words may be joined, as isochronous+adaptive"
    yield "    languages: " + ", ".join(values.LANGUAGES)


def text_help():
    """The fields of a text, from the words of makers/write; and the words for values."""
    fields = "    device " + read("makers/write").split('"""')[1].partition("    device ")[2].partition("\n\n")[0]
    return fields.replace("\\\\", "\\") + "\n\nWords for values; a number may stand wherever a word does:\n\n" + "\n".join(words_for_values()) + "\n"


def texts():
    return [dict(zip(("kind", "name", "text", "high"), (kind, name, *map(read, paths)))) for kind, name, *paths in TEXTS]


def examples():
    shown = [{"name": one["name"], "text": one["text"]} for one in texts() if one["kind"] == "one" and one["name"] in EXAMPLES]
    return shown + [{"name": name, "set": base64.b64encode(read(path, "rb")).decode(), "serial": ""} for name, path in REFUSED]


def packet_words():
    """The words for transfers packet by packet, each with what is told with it and its event."""
    takes = {None: "", int: "number", bytes: "bytes"}
    told = {word: (takes[kind], event) for word, (kind, event) in packets.WORDS.items()}
    return {"words": told, "orders": packets.ORDERS, "stages": packets.STAGES, "blocks": packets.BLOCKS}


def facts(module):
    return {
        "numbers": {number: {"name": name, "remark": remark} for number, (name, remark) in words.NUMBERS.items()},
        "fields": text.FIELDS,
        "inHexadecimal": text.IN_HEXADECIMAL.pattern,
        "frame": fields.FRAME,
        "entry": fields.ENTRY,
        "values": values.VALUES,
        "bits": values.BITS,
        "units": values.UNITS,
        "languages": values.LANGUAGES,
        "requests": events.REQUESTS,
        "sizes": events.SIZES,
        "recipients": events.RECIPIENTS,
        "features": events.FEATURES,
        "descriptors": events.DESCRIPTORS,
        "events": events.EVENTS,
        "packets": packet_words(),
        "rules": rules(),
        "otherLimits": OTHER_LIMITS,
        "asked": {limits: asked_of(limits) for limits in OTHER_LIMITS},
        "texts": texts(),
        "textHelp": text_help(),
        "examples": examples(),
        "module": {"bytes": f"{len(module):,}", "sum": hashlib.sha256(module).hexdigest()},
    }


def as_script(known):
    """JSON that may stand in a script element."""
    return json.dumps(known, ensure_ascii=False).replace("</", "<\\/")
