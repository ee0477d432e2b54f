// Sets made of texts, of pieces or of a dump. The library writes them; where it refuses, this page lays the pieces out as the rules say, so that the
// library's opener can tell why.
import { TYPE, cut } from "./descriptors.js";
import { faultsOf } from "./mending.js";
import { laidOut } from "./layout.js";
import { pairOfEntries } from "./pairs.js";
import { Mistake, lineAt, piece, readEntries } from "./text.js";
import { alike, joined, word } from "./bytes.js";
import { KINDS, SERIAL } from "./board.js";

const NO_BYTES = new Uint8Array(0);
const TEXT_NAMES = ["full-speed text", "high-speed text"];

// The pieces of a stream, as far as their lengths lead.
function readPieces(stream) {
    const pieces = [];
    for (let at = 0; at + 6 <= stream.length; at += 6 + word(stream, at + 4))
        pieces.push({ at, type: stream[at], index: stream[at + 1], language: word(stream, at + 2), body: stream.slice(at + 6, at + 6 + word(stream, at + 4)) });
    return pieces;
}

// The piece whose entry or body holds a byte of the set.
const pieceAt = ({ placed }, place) =>
    placed.find(({ start, offset, part: { body } }) => (place >= start && place < start + 8) || (place >= offset && place < offset + body.length));

// The line of a text that a fault is in, and the text's number: of the serial number, or of the descriptor; of a number that stands nowhere, the device's.
function lineOf(laid, fault, serialLines) {
    if (fault.block === SERIAL) {
        const text = Math.max(0, serialLines.findIndex(Boolean));
        return { text, line: serialLines[text] ?? laid[0].placed.find(({ part }) => part.type === TYPE.DEVICE)?.part.line };
    }
    const found = pieceAt(laid[fault.block], fault.place);
    return { text: fault.block, line: found?.part.line && (fault.place >= found.offset ? lineAt(found.part, fault.place - found.offset) : found.part.line) };
}

// The piece that a fault is in, and where in its body; below 0 it is in its entry.
function pieceOf(laid, { block, place }) {
    const found = block === SERIAL ? null : pieceAt(laid[block], place);
    return found ? { piece: found.part, inBody: place - found.offset } : {};
}

// Why sets of a kind that were laid out are refused: what the opener says of them, and each fault with its line or its piece.
function reasonOf(library, laid, lent, serialLines) {
    const { number } = library.open(KINDS[lent.kind].open, lent.sets, lent.serial), told = library.has(KINDS[lent.kind].explain);
    const faults = told ? faultsOf(library, lent).map((fault) => ({ ...fault, ...lineOf(laid, fault, serialLines), ...pieceOf(laid, fault) })) : [];
    return { number, lent, faults };
}

// The same of pieces, of which one set would be made.
function reason(library, pieces, { serial, serialLine }, kind) {
    const laid = laidOut(pieces);
    return laid === null ? { words: "so many pieces, or bytes, are more than a set can count" } : reasonOf(library, [laid], { kind, sets: [laid.set], serial }, [serialLine]);
}

// From pieces: { number, sets, serial }, and for a refusal its reason.
function written(library, stream, read, kind, pieces) {
    const { number, written: set } = library.write(kind === "super" ? "hk_super_write" : "hk_write", [stream, read.serial]);
    return { number, kind, sets: [set], serial: read.serial, pieces: stream, reason: number === 21 ? reason(library, pieces, read, kind) : null };
}

export const setOfPieces = (library, stream, serial, kind = "one") => written(library, stream, { serial }, kind, readPieces(stream));

// The work, or the mistake of a text that cannot be read.
function unlessMistaken(work) {
    try {
        return work();
    } catch (error) {
        if (error instanceof Mistake)
            return { mistake: error.message, line: error.line, text: error.text };
        throw error;
    }
}

export function setOfText(library, text, kind = "one") {
    return unlessMistaken(() => {
        const read = readEntries(text);
        return written(library, joined(read.entries.map(piece)), read, kind, read.entries);
    });
}

// ---- pairs
function readOne(text, at) {
    try {
        return readEntries(text);
    } catch (error) {
        if (error instanceof Mistake)
            Object.assign(error, { message: `${TEXT_NAMES[at]}, ${error.message}`, text: at });
        throw error;
    }
}

// The serial number may stand in either text, or in both.
function oneSerial(full, high) {
    if (full.length > 0 && high.length > 0 && !alike(full, high))
        throw new Mistake("the two texts have two serial numbers, and a unit has one");
    return full.length > 0 ? full : high;
}

export function pairOfTexts(library, fullText, highText) {
    return unlessMistaken(() => {
        const [full, high] = [fullText, highText].map(readOne), serial = oneSerial(full.serial, high.serial);
        const laid = pairOfEntries(full.entries, high.entries), lent = { kind: "two", sets: laid.map(({ set }) => set), serial };
        const { number } = library.open("hk_two_open", lent.sets, serial);
        return { number, ...lent, reason: number === 0 ? null : reasonOf(library, laid, lent, [full.serialLine, high.serialLine]) };
    });
}

// ---- dumps
// The device and the bodies of a dump, references zeroed, as far as wTotalLength leads.
function piecesOfDump(dump) {
    const device = dump.slice(0, 18).fill(0, 14, 17), pieces = [{ type: TYPE.DEVICE, index: 0, language: 0, body: device }];
    for (let at = 18; at + 4 <= dump.length; at += Math.max(4, word(dump, at + 2)))
        pieces.push({ type: TYPE.CONFIGURATION, index: pieces.length - 1, language: 0, body: withoutReferences(dump.slice(at, at + word(dump, at + 2))) });
    return pieces;
}

function withoutReferences(body) {
    if (body.length > 6)
        body[6] = 0;
    for (const [start, end] of cut(body, 0, body.length))
        if (body[start + 1] === TYPE.INTERFACE && end - start > 8)
            body[start + 8] = 0;
    return body;
}

// The byte of a dump at which a fault of its set is: its pieces stand there end to end.
function placeInDump(fault, pieces) {
    const before = pieces.slice(0, pieces.indexOf(fault.piece)).reduce((sum, { body }) => sum + body.length, 0);
    return fault.piece && fault.inBody >= 0 ? before + fault.inBody : undefined;
}

export function setOfDump(library, dump) {
    const { number, written: set } = library.write("hk_import", [dump]), pieces = number === 21 ? piecesOfDump(dump) : [];
    const why = number === 21 ? reason(library, pieces, { serial: NO_BYTES }, "one") : null;
    const faults = why?.faults?.map((fault) => ({ ...fault, inDump: placeInDump(fault, pieces) }));
    return { number, kind: "one", sets: [set], serial: NO_BYTES, reason: why && { ...why, faults } };
}

export function dumpOfSet(library, set, serial) {
    return library.write("hk_export", [set, serial]);
}
