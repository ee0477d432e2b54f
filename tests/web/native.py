"""native.py HOST HARNESS: what the native programs say of the sets that the page is shown, as JSON: the lister, the bench host, makers/read, the makers'
program's trim, export and, of recorded devices, import; what makers/explain says of refused sets; and the sets that are written of the texts."""
import json, os, random, subprocess, sys, tempfile

sys.path.insert(1, os.path.dirname(os.path.dirname(os.path.abspath(__file__))))
sys.dont_write_bytecode = True

from shared import EMULATE, TOP, enumerations, recordings, script
from pieces import CONFIGURATION, DEVICE, S_DEVICE, a_set, configuration, endpoint, interface
from text import Mistake, piece, read_entries, read_text as whole_text, text_of

sys.path[1:1] = [os.path.join(TOP, "page"), os.path.join(TOP, "bench")]
from facts import TEXTS as TEMPLATES
from asking import LaidOut, asker, read_told
from dumped import dumped_set, place_in_dump
from faults import brief
from kinds import looks_like
from lent import ONE, SUPER_SET, TWO, Lent, one
from mending import faults_of
from pairing import laid_out, mirrors
from served import Served
from library import Library
from packets import Lend, PacketCall, Transfers, order_words, pipe_words
from script import Lending, read_script

TEXTS = ["makers/bench.txt", "makers/titrator.txt", "bench/sets/scale.txt", "bench/sets/hasty.txt"]
SETS = [("bench/sets/counter.bin", "bench/sets/counter.unit"), ("bench/sets/timer.bin", "bench/sets/timer-unit.bin"), ("bench/sets/spring.bin", None)]


def read(path):
    with open(os.path.join(TOP, path), "rb") as file:
        return file.read()


def long_sets():
    """Sets of 16,384 bytes: one of settings and endpoints, one of the shortest class descriptors."""
    device = S_DEVICE[:17]
    settings = [interface(number, alternate, 1) + endpoint(0x81 + number if number < 15 else 0x01) for number in range(16) for alternate in range(16)]
    fill = lambda size: bytes([2, 36]) * (size // 2 - 1) + bytes([2 + size % 2, 36, 0][: 2 + size % 2])
    three = [configuration(*settings, *([fill(16384 - 4 - 32 - 18 - 3 * 4105)] if value == 3 else []), value=value, interfaces=16) for value in (1, 2, 3)]
    yield "settings", a_set((DEVICE, 0, 0, device + bytes([3])), *[(CONFIGURATION, index, 0, body) for index, body in enumerate(three)]), b""
    yield "classes", a_set((DEVICE, 0, 0, device + bytes([1])), (CONFIGURATION, 0, 0, configuration(interface(0), fill(16384 - 20 - 18 - 18)))), b""


class Room:
    """A folder in which programs run: files in, files and text out."""

    def __init__(self, folder):
        self.folder = folder

    def run(self, command, given, wanted):
        for name in os.listdir(self.folder):
            os.remove(os.path.join(self.folder, name))
        for name, data in given.items():
            with open(os.path.join(self.folder, name), "wb") as file:
                file.write(data)
        done = subprocess.run([EMULATE, *command], cwd=self.folder, capture_output=True)
        made = os.path.join(self.folder, wanted)
        return done.stdout.decode("utf-8", "replace"), read(made).hex() if os.path.exists(made) else None

    def program(self, words, given, wanted=""):
        name, *word = words.split()
        return self.run([os.path.join(TOP, "target", "bin", name), *word], given, wanted or "no such file")


def explained(room, given):
    """Number, rule and byte of a refused set."""
    fault = read_told(room.program("maker explain", given)[0])
    return [fault.number, fault.rule, fault.place] if fault else None


def told(room, host, name, data, serial):
    """What is said of a set."""
    given = {"set.bin": data, "unit.bin": serial}
    try:
        text, in_words = text_of(data, serial), text_of(data, serial, in_words=True)
    except Mistake:
        text = in_words = None
    return {
        "name": name, "set": data.hex(), "serial": serial.hex(), "text": text, "inWords": in_words,
        "listing": room.program("lister", given)[0], "explained": explained(room, given),
        "transcript": room.run([host, "set.bin", "unit.bin"], given, "no such file")[0],
        "trimmed": room.program("maker trim", given, "trimmed.bin")[1],
        "exported": room.program("maker export", given, "descriptors")[1],
    }


def written(room, path):
    """The set of a text, or none."""
    source = read(path).decode()
    entries, serial = read_entries(source.splitlines())
    pieces = b"".join(piece(entry) for _, entry in entries)
    return {"name": path, "source": source, "pieces": pieces.hex(), "serial": serial.hex(), "set": room.program("maker write", {"pieces.bin": pieces, "unit.bin": serial}, "set.bin")[1]}


def read_as(source):
    """The pieces and the serial block of a text, or its mistake."""
    try:
        entries, serial = read_entries(source.splitlines())
        return {"source": source, "pieces": b"".join(piece(entry) for _, entry in entries).hex(), "serial": serial.hex()}
    except Mistake as mistake:
        return {"source": source, "mistake": str(mistake)}


def misread(count):
    """Texts with words left out, doubled or put elsewhere."""
    drawn, sources = random.Random(1), [read(path).decode() for path in dict.fromkeys([*TEXTS, *(path for _, _, *paths in TEMPLATES for path in paths)])]
    words = [word for source in sources for word in source.split()] + ["0", "255", "256", "65536", "0x10", "010", "-1", "#", "more", "=", '"', '"a', "ä", "bytes", "piece"]
    words += ["bytes!", "101mA", "512mA", "9999999999999999999998mA", "bulk+interrupt", "isochronous+adaptive", "+", "EN-us", "xx-YY", "en", "Vendor", "16-in", "constructor"]
    for _ in range(count):
        lines = [line.split(" ") for line in drawn.choice(sources).splitlines()]
        for _ in range(drawn.randint(1, 3)):
            line = drawn.choice([line for line in lines if line])
            at = drawn.randrange(len(line))
            line[at : at + drawn.randint(0, 1)] = drawn.choice([[], [drawn.choice(words)], [line[at], line[at]]])
        yield read_as("\n".join(" ".join(line) for line in lines))


def stepped(library, name):
    """The bench's script of packets, step by step: its line, what the host got, and what the pipe gave."""
    transfers, lent = None, {"set": b"", "serial": b"", "record": bytes(32)}
    for step in read_script(os.path.join(TOP, name)):
        library.lend_all(one(lent["set"], lent["serial"]))
        if isinstance(step, Lending):
            entries, lent["serial"] = step.text
            lent["set"] = library.make_set(entries, lent["serial"])
        elif isinstance(step, Lend):
            transfers = Transfers(library, step.data)
            yield {"line": step.line.text, "pipe": step.data.hex(), "set": lent["set"].hex(), "serial": lent["serial"].hex(), "record": lent["record"].hex()}
        elif isinstance(step, PacketCall):
            host, taken, heard = transfers.step(step, lent["record"])
            given = {} if heard is None else {"number": heard.number, "order": order_words(heard), "packet": heard.data.hex(), "pipe": pipe_words(heard.pipe), "record": heard.image.hex()}
            lent["record"] = heard.image if heard else lent["record"]
            yield {"line": step.line.text, "host": host, "taken": None if taken is None else taken.hex(), **given}
        else:
            lent["record"] = library.answer(step.event, lent["record"]).image


# ---- refused sets
# Examples of several faults, of which one is behind bytes that mending put in: two endpoints without companions.
SEVERAL = ["SS with 0: 53; 18: 20; 24: 4E; 48: 20; 59: 02; 71: 07 05 82 03 08 00 0A 05 0F 05 00 00"]


def refused_examples():
    """The guide's examples: sets that are lent alone, pairs, SuperSpeed sets."""
    guide = script("tests", "makers", "examples")
    with open(guide.GUIDE, encoding="utf-8") as file:
        text = file.read()
    sets = guide.read_sets(guide.read_blocks(text))
    for example in [*(example for example, _ in guide.read_examples(text, sets)), *SEVERAL]:
        *blocks, serial = guide.changed_pair(sets, example) if guide.is_pair(example) else guide.changed(sets, example)
        kind = TWO if len(blocks) == 2 else SUPER_SET if guide.is_super(sets, example) else ONE
        yield example, Lent(kind, tuple(blocks), serial)


def changed(lent, count, name):
    """What is lent, with one to four bytes of a set changed."""
    drawn = random.Random(2)
    for at in range(count):
        block = drawn.randrange(len(lent.sets))
        data = bytearray(lent.sets[block])
        for _ in range(drawn.randint(1, 4)):
            data[drawn.choice([drawn.randrange(len(data)), drawn.randrange(len(data) // 8, len(data) // 2)])] = drawn.choice([0, 1, 2, 3, 7, 48, 64, 128, 255, drawn.randrange(256)])
        yield f"{name} {at}, changed", lent._replace(sets=tuple(bytes(data) if other == block else one for other, one in enumerate(lent.sets)))


def changed_templates(templates):
    """The titrator, alone and as a pair, and the SuperSpeed bench set, with bytes changed."""
    for one_of in templates:
        if (one_of["kind"], one_of["name"]) in ((ONE, "Titrator"), (TWO, "Titrator"), (SUPER_SET, "Bench set S")):
            lent = Lent(one_of["kind"], tuple(map(bytes.fromhex, one_of["sets"])), bytes.fromhex(one_of["serial"]))
            yield from changed(lent, 60, f"{one_of['name']}, {one_of['kind']},")


def refused(library, named):
    """Every fault of each, and what a set that is lent alone looks like."""
    for name, lent in named:
        briefs = [brief(lent, fault) for fault in faults_of(lent, asker(library))]
        if briefs:
            looks = looks_like(*lent.sets, lent.serial, library) if lent.kind == ONE else ""
            yield {"name": name, "kind": lent.kind, "sets": [data.hex() for data in lent.sets], "set": lent.sets[0].hex(), "serial": lent.serial.hex(), "briefs": briefs, "looks": looks}


def lines_of(made, library):
    """The rule, the text and the line of each fault."""
    found = []
    for fault in faults_of(made.lent, asker(library)):
        at, line = made.line_of(fault)
        found.append([fault.rule, at, line.number if line else 0])
    return found


def blamed(library, texts):
    """Of texts that can be read, and of pairs of them: where each fault is."""
    read = [one_of["source"] for one_of in texts if "mistake" not in one_of]
    for source in read:
        yield {"sources": [source], "faults": lines_of(LaidOut([whole_text(source.splitlines())]), library)}
    for pair in zip(read[::6], read[3::6]):
        try:
            yield {"sources": pair, "faults": lines_of(LaidOut([whole_text(source.splitlines()) for source in pair], TWO), library)}
        except (Mistake, OverflowError):
            continue


def imported(room, library, name, dump):
    """The set of a dump; of one that breaks rules, each rule and its byte of the dump."""
    told, made = room.program("maker import", {"descriptors": dump}, "set.bin")
    faults = []
    if told.startswith("refused 21"):
        data, serial = dumped_set(dump)
        faults = [[fault.rule, place_in_dump(data, fault)] for fault in faults_of(one(data, serial), asker(library))]
    return {"name": name, "dump": dump.hex(), "set": made, "faults": faults}


# ---- texts of every kind
def read_text(path):
    entries, serial = read_entries(read(path).decode().splitlines())
    return [entry for _, entry in entries], serial


def templates(room):
    """The sets of each text that the page offers to start from."""
    for kind, name, *paths in TEMPLATES:
        texts = [read_text(path) for path in paths]
        serial = next((serial for _, serial in texts if serial), b"")
        if kind == "two":
            (full, _), (high, _) = texts
            sets = [laid_out(full + list(mirrors(high))).hex(), laid_out(high + list(mirrors(full))).hex()]
        else:
            pieces = b"".join(map(piece, texts[0][0]))
            sets = [room.program("maker write" + " super" * (kind == "super"), {"pieces.bin": pieces, "unit.bin": serial}, "set.bin")[1]]
        yield {"kind": kind, "name": name, "sets": sets, "serial": serial.hex()}


def other_kinds(templates):
    """Sets that are no single full-speed set."""
    for one_of in templates:
        if one_of["kind"] != "one":
            yield from ((f"{one_of['name']}, {one_of['kind']} {at}", one(bytes.fromhex(data), bytes.fromhex(one_of["serial"]))) for at, data in enumerate(one_of["sets"]))
    entries, serial = read_text("makers/titrator-high.txt")
    yield "the titrator's high-speed text alone", one(laid_out(entries), serial)


def main():
    host, harness = map(os.path.abspath, sys.argv[1:])
    with tempfile.TemporaryDirectory() as folder, Library([EMULATE, harness]) as library, Served([EMULATE, harness]) as served:
        room = Room(folder)
        offered, mistaken = list(templates(room)), list(misread(800))
        texts = [written(room, path) for path in TEXTS]
        sets = [(path, read(path), read(unit) if unit else b"") for path, unit in SETS]
        sets += [(text["name"], bytes.fromhex(text["set"]), bytes.fromhex(text["serial"])) for text in texts if text["set"]]
        json.dump({
            "texts": texts,
            "templates": offered,
            "kinds": list(refused(served, other_kinds(offered))),
            "explained": list(refused(served, [*refused_examples(), *changed_templates(offered)])),
            "misread": mistaken,
            "packets": list(stepped(library, "bench/scripts/packets.txt")),
            "blamed": list(blamed(served, mistaken)),
            "sets": [told(room, host, *one_of) for one_of in sets],
            "recorded": [told(room, host, *one_of) for one_of in enumerations()],
            "long": [{"name": name, "set": data.hex(), "serial": serial.hex(), "listing": room.program("lister", {"set.bin": data, "unit.bin": serial})[0]} for name, data, serial in long_sets()],
            "dumps": [imported(room, served, name, dump) for name, dump in recordings()],
        }, sys.stdout)


if __name__ == "__main__":
    main()
