// scripts.mjs SCRIPTS MODULE NATIVE VECTORS..: the page's scripts in node, without a browser: the library as they call it on the vectors, and what they make of
// texts, dumps and sets, held to what the native programs say (NATIVE, from native.py).
import { readFileSync } from "node:fs";
import { pathToFileURL } from "node:url";
import { basename, join } from "node:path";
import { askVectors } from "./vectors.mjs";

const [folder, module, natively, ...vectors] = process.argv.slice(2);
const script = (name) => import(pathToFileURL(join(folder, `${name}.js`)));
const { Library } = await script("library"), { Board } = await script("board"), { Host, stepLines } = await script("host");
const { listing } = await script("set"), { Mistake, piece, readEntries, textOf } = await script("text");
const { dumpOfSet, pairOfTexts, setOfDump, setOfText } = await script("making"), { joined } = await script("bytes"), { recordWords } = await script("record");
const { brief } = await script("faults"), { faultsOf } = await script("mending"), { likenessOf } = await script("likeness"), { FACTS } = await script("facts"), { highSpeedText } = await script("highspeed");
const { Transfers, orderWords, pipeWords, readCall, readPipe } = await script("packets");
const { subsequence } = await import("./transcript.mjs");

const library = await Library.load(readFileSync(module)), native = JSON.parse(readFileSync(natively, "utf8"));
const bytesOf = (text) => new Uint8Array(Buffer.from(text, "hex")), textOfBytes = (bytes) => Buffer.from(bytes).toString("hex");
let failures = 0;

function hold(what, found, expected) {
    if (found === expected)
        return;
    failures++;
    console.log(`scripts: ${what} DISAGREES: ${String(found).slice(0, 300)}, and not ${String(expected).slice(0, 300)}`);
}

for (const path of vectors) {
    const { asked, passed, differing } = askVectors(library, listing, readFileSync(path, "utf8"));
    console.log(`${basename(path)}: ${asked} questions, ${differing.length} differ${passed > 0 ? `; ${passed} that the page does not ask` : ""}`);
    failures += differing.length;
    differing.slice(0, 5).forEach((line) => console.log(`    ${line}`));
}

// ---- texts
function readAs(source) {
    try {
        const { entries, serial } = readEntries(source);
        return { pieces: textOfBytes(joined(entries.map(piece))), serial: textOfBytes(serial) };
    } catch (error) {
        if (!(error instanceof Mistake))
            throw error;
        return { mistake: error.message };
    }
}

for (const { source, ...expected } of native.misread)
    hold("a text with mistakes", JSON.stringify(readAs(source)), JSON.stringify(expected));
for (const { name, source, set } of native.texts) {
    const made = setOfText(library, source);
    hold(`the set of ${name}`, made.number === 0 ? textOfBytes(made.sets[0]) : null, set);
}
for (const { sources, faults } of native.blamed) {
    const made = sources.length === 2 ? pairOfTexts(library, ...sources) : setOfText(library, ...sources);
    hold("the lines of texts with faults", JSON.stringify(made.reason?.faults?.map(({ rule, text, line }) => [rule, text, line?.number ?? 0]) ?? []), JSON.stringify(faults));
}
console.log(`${native.misread.length + native.texts.length} texts read as makers/write reads them`);

for (const { kind, name, text, high } of FACTS.texts) {
    const expected = native.templates.find((one) => one.kind === kind && one.name === name), made = kind === "two" ? pairOfTexts(library, text, high) : setOfText(library, text, kind);
    hold(`the sets of ${name}, ${kind}`, made.number === 0 ? made.sets.map(textOfBytes).join(" ") : made.mistake ?? made.number, expected.sets.join(" "));
}
console.log(`${FACTS.texts.length} texts to start from give the native programs' sets`);

// A full-speed text at high speed: the pair's second set of the first text alone.
for (const { name, text, high } of FACTS.texts.filter(({ kind }) => kind === "two"))
    hold(`${name} at high speed`, pairOfTexts(library, text, highSpeedText(text)).sets?.map(textOfBytes).join(" "), pairOfTexts(library, text, high).sets.map(textOfBytes).join(" "));
for (const { name, text } of FACTS.texts.filter(({ kind }) => kind === "one"))
    hold(`${name} as a pair`, pairOfTexts(library, text, highSpeedText(text)).number, 0);

// ---- refused sets
let faults = 0;
for (const { name, kind, sets: lentSets, serial, briefs, looks } of [...native.explained, ...native.kinds]) {
    const lent = { kind, sets: lentSets.map(bytesOf), serial: bytesOf(serial) }, found = faultsOf(library, lent).map((fault) => brief(lent, fault));
    hold(`the faults of ${name}`, found.join("\n"), briefs.join("\n"));
    if (kind === "one")
        hold(`what ${name} looks like`, likenessOf(library, lent.sets[0], lent.serial)?.words ?? "", looks);
    faults += found.length;
}
console.log(`${faults} faults of ${native.explained.length + native.kinds.length} refused sets and pairs told as makers/explain tells them, and what each looks like`);

// ---- sets
const sets = [...native.sets, ...native.recorded];
let steps = 0;
for (const { name, set, serial, text, inWords, listing: listed, transcript, trimmed, exported } of sets) {
    const [bytes, block] = [bytesOf(set), bytesOf(serial)], board = new Board(library, "one", [bytes], block);
    hold(`the listing of ${name}`, listing(bytes, board.number).map((line) => `${line}\n`).join(""), listed);
    if (text !== null)
        hold(`the text of ${name}`, textOf(bytes, block), text);
    if (inWords !== null)
        hold(`the text of ${name}, in words`, textOf(bytes, block, true), inWords);
    const trim = library.trim(bytes, block), dump = dumpOfSet(library, bytes, block);
    hold(`the trimmed ${name}`, trim.number === 0 ? textOfBytes(trim.written) : null, trimmed);
    hold(`the exported ${name}`, dump.number === 0 ? textOfBytes(dump.written) : null, exported);
    if (board.number !== 0) {
        hold(`the refusal of ${name}`, transcript.split(":")[0], `refused with ${board.number}`);
        continue;
    }
    const seen = [`power on, the set is accepted`, `  record: ${recordWords(board.record)}`, ...[...new Host(board).enumerate()].flatMap(stepLines)];
    const { found, missing } = subsequence(seen, transcript.split("\n"));
    steps += found;
    hold(`the enumeration of ${name}`, missing, null);
}
console.log(`${sets.length} sets listed, read as a text, trimmed, exported and enumerated as the native programs do, in ${steps} steps`);

for (const { name, dump, set, faults: expected } of native.dumps) {
    const made = setOfDump(library, bytesOf(dump));
    hold(`the faults of the import of ${name}`, JSON.stringify(made.reason?.faults?.map(({ rule, inDump }) => [rule, inDump]) ?? []), JSON.stringify(expected));
    hold(`the import of ${name}`, made.number === 0 ? textOfBytes(made.sets[0]) : null, set);
}
// ---- packet by packet
let transfers = null;
for (const { line, set, serial, record, pipe, ...expected } of native.packets) {
    if (set !== undefined) {
        const board = Object.assign(transfers?.board ?? new Board(library, "one", [bytesOf(set)], bytesOf(serial)), { record: bytesOf(record) });
        transfers = new Transfers(board, readPipe(line));
        hold(`the pipe of ${line}`, textOfBytes(transfers.pipe), pipe);
        continue;
    }
    const { host, taken, heard } = transfers.play(readCall(line)), got = { host, taken: taken && textOfBytes(taken) };
    const given = heard ? { number: heard.number, order: orderWords(heard), packet: textOfBytes(heard.packet) } : {};
    hold(`what comes of ${line}`, JSON.stringify({ ...got, ...given }), JSON.stringify(expected));
    hold(`the records after ${line}`, heard ? `${pipeWords(heard.pipe)} ${textOfBytes(heard.record)}` : "", heard ? `${pipe} ${record}` : "");
}
console.log(`${native.packets.length} steps packet by packet as bench/play plays them`);
console.log(`${native.dumps.length} recorded devices imported as the importer does`);
console.log(`scripts: ${failures} failed`);
process.exit(failures === 0 ? 0 : 1);
