// The text of a set, as makers/text.py has it: its lines to pieces, and the entries of a set back to lines.
import { FACTS } from "./facts.js";
import { TYPE, cut } from "./descriptors.js";
import { bodyOf, entriesOf } from "./set.js";
import { areBits, languageOf, languageWord, unitOf, valueWord, wordsFor } from "./values.js";
import { alike, hexadecimal, joined, letters, littleEndian, readHexadecimal, readNumber, spaced, word } from "./bytes.js";

export class Mistake extends Error {}

const IN_HEXADECIMAL = new RegExp(`^(?:${FACTS.inHexadecimal})`);
const NONE = new Uint8Array(0);
const RAW = ["bytes", "bytes!"]; // one descriptor, whose first byte is its length; and whatever it says

class Line {
    constructor(number, text) {
        this.number = number;
        this.text = text;
        const space = text.indexOf(" ");
        this.word = space < 0 ? text : text.slice(0, space);
        this.rest = space < 0 ? "" : text.slice(space).trim();
    }

    mistake(what) {
        return Object.assign(new Mistake(`line ${this.number}: ${what}`), { line: this });
    }

    readNumber(text, size) {
        const value = readNumber(text);
        if (value === null)
            throw this.mistake(`${text} is no number`);
        if (value >= 256 ** size)
            throw this.mistake(`${text} has no room in ${size} byte${size > 1 ? "s" : ""}`);
        return value;
    }

    readBytes(text) {
        const bytes = readHexadecimal(text);
        if (bytes === null)
            throw this.mistake(`${text} is not hexadecimal`);
        return bytes;
    }

    // A language by its name or its number.
    readLanguage(text) {
        const named = languageOf(text);
        if (named === undefined && /^[A-Za-z]{2,3}(?:-[A-Za-z]+)*$/.test(text))
            throw this.mistake(`${text} is no language that is known by its name: give its number, as 0x0409 for en-US`);
        return named ?? this.readNumber(text, 2);
    }

    // A field's value: a number, a number with its unit, or words for it. Words that are joined by + set their bits together.
    readValue(name, text, size) {
        const known = wordsFor(this.word, name), [unit, step] = unitOf(name);
        const measured = unit && text.endsWith(unit) && /^[0-9]+$/.test(text.slice(0, -unit.length)) ? BigInt(text.slice(0, -unit.length)) : null;
        if (measured !== null && measured % BigInt(step) !== 0n)
            throw this.mistake(`${text}: ${name} counts ${step} ${unit}`);
        if (measured !== null)
            return this.readNumber(`${measured / BigInt(step)}`, size);
        const parts = areBits(name) ? text.split("+") : [text];
        if (parts.every((part) => Object.hasOwn(known, part)))
            return parts.reduce((bits, part) => bits | known[part], 0);
        if (Object.keys(known).length > 0 && /^[A-Za-z+-]/.test(text))
            throw this.mistake(`${text} is no number, and none of ${Object.keys(known).join(", ")}`);
        return this.readNumber(text, size);
    }

    // What stands on a line `bytes`: one descriptor, unless the line is `bytes!`.
    rawBytes() {
        const bytes = this.readBytes(this.rest);
        if (this.word === "bytes" && bytes.length === 0)
            throw this.mistake("bytes has the bytes of a descriptor, as bytes 05 24 00 10 01");
        if (this.word === "bytes" && bytes[0] !== bytes.length)
            throw this.mistake(`bLength says ${bytes[0]}, ${bytes.length} byte${bytes.length > 1 ? "s stand" : " stands"} here (bytes! takes them as they are)`);
        return bytes;
    }

    // The fields that the line names, by name, and the bytes behind the fields.
    named() {
        const sizes = new Map(FACTS.fields[this.word][1].map(([name, size]) => [name, size]));
        const [rest, ...more] = ` ${this.rest}`.split(" more ");
        const words = rest.trim() === "" ? [] : rest.trim().split(/[ =]+/);
        if (words.length % 2 === 1 || words.some((name, at) => at % 2 === 0 && !sizes.has(name)))
            throw this.mistake(`${this.word} has the fields ${[...sizes.keys()].join(", ")}, each with its value`);
        const fields = {};
        for (let at = 0; at < words.length; at += 2)
            fields[words[at]] = this.readValue(words[at], words[at + 1], sizes.get(words[at]));
        return [fields, this.readBytes(more.join(" more "))];
    }

    descriptor(counted = {}) {
        if (RAW.includes(this.word))
            return this.rawBytes();
        const [type, fields] = FACTS.fields[this.word], [named, more] = this.named();
        const body = joined([...fields.map(([name, size, usual]) => {
            const value = named[name] ?? counted[name] ?? usual;
            if (value >= 256 ** size)
                throw this.mistake(`${name} is counted as ${value}, and has no room for it`);
            return littleEndian(value, size);
        }), more]);
        if (body.length > 253)
            throw this.mistake("a descriptor has at most 255 bytes");
        return joined([Uint8Array.of(2 + body.length, type), body]);
    }
}

export function* readLines(text) {
    let number = 0;
    for (const whole of text.split(/\r\n|\r|\n/)) {
        number++;
        const line = whole.replace(/(^|\s)#[^]*/, "").replaceAll("\t", " ").trim();
        if (line !== "")
            yield new Line(number, line);
    }
}

// ---- from a text to pieces
function stringBody(line, text) {
    let plain = text;
    if (text.startsWith('"')) {
        try {
            plain = JSON.parse(text);
        } catch {
            throw line.mistake(`${text} does not end as a text in quotation marks does`);
        }
    }
    if (plain.length > 126)
        throw line.mistake("a string has at most 126 letters");
    return joined([Uint8Array.of(2 + 2 * plain.length, TYPE.STRING), ...Array.from({ length: plain.length }, (_, at) => littleEndian(plain.charCodeAt(at), 2))]);
}

// The body of a configuration's line and those that belong to it, and the bytes of each line in it.
function configurationOf(lines) {
    const settings = lines.flatMap((line, at) => (line.word === "interface" ? [at] : []));
    const endpoints = new Map(settings.map((start, at) => [start, lines.slice(start, settings[at + 1]).filter((line) => line.word === "endpoint").length]));
    const numbers = new Set(settings.map((at) => lines[at].named()[0].bInterfaceNumber ?? 0));
    const below = lines.slice(1).map((line, at) => line.descriptor({ bNumEndpoints: endpoints.get(at + 1) }));
    const size = below.reduce((sum, { length }) => sum + length, lines[0].descriptor({ wTotalLength: 0, bNumInterfaces: 0 }).length);
    if (size > 65535)
        throw lines[0].mistake("this configuration is longer than two bytes can say");
    const descriptors = [lines[0].descriptor({ wTotalLength: size, bNumInterfaces: numbers.size }), ...below];
    return { body: joined(descriptors), lengths: descriptors.map(({ length }) => length) };
}

// As Python's split(None, most).
function splitWords(text, most) {
    const words = [];
    let rest = text.trim();
    while (rest !== "" && words.length < most) {
        const [first] = rest.match(/^\S+/);
        words.push(first);
        rest = rest.slice(first.length).trim();
    }
    return rest === "" ? words : [...words, rest];
}

// Type, index, language and body of a line and those that belong to it.
function entryOf(group, configurations) {
    const line = group[0];
    if (line.word === "device")
        return { type: TYPE.DEVICE, index: 0, language: 0, body: line.descriptor({ bNumConfigurations: configurations.length }) };
    if (line.word === "configuration")
        return { type: TYPE.CONFIGURATION, index: configurations.indexOf(line), language: 0, ...configurationOf(group) };
    if (line.word === "languages") {
        const numbers = splitWords(line.rest, Infinity).map((text) => littleEndian(line.readLanguage(text), 2));
        return { type: TYPE.STRING, index: 0, language: 0, body: joined([Uint8Array.of(2 + 2 * numbers.length, TYPE.STRING), ...numbers]) };
    }
    const words = splitWords(line.rest, line.word === "string" ? 2 : 3);
    if (words.length < 2)
        throw line.mistake(`${line.word} has a number and a language`);
    if (line.word === "string")
        return { type: TYPE.STRING, index: line.readNumber(words[0], 1), language: line.readLanguage(words[1]), body: stringBody(line, words[2] ?? "") };
    const [type, index] = words.slice(0, 2).map((text) => line.readNumber(text, 1));
    return { type, index, language: line.readNumber(words[2] ?? "0", 2), body: line.readBytes(words[3] ?? "") };
}

const BELONGING = ["interface", "endpoint", ...RAW], LEADING = ["device", "configuration", "languages", "string", "piece"];
const FIRST_WORDS = ["device", "configuration", "interface", "endpoint", "bytes", "languages", "string", "serial", "piece"];

// The entries of a text, each with its lines, and the serial block with its line.
export function readEntries(text) {
    const groups = [];
    let [serial, serialLine] = [NONE, null];
    for (const line of readLines(text)) {
        if (BELONGING.includes(line.word)) {
            if (groups.at(-1)?.[0].word !== "configuration")
                throw line.mistake(`before this ${line.word} comes a configuration`);
            groups.at(-1).push(line);
        } else if (LEADING.includes(line.word)) {
            groups.push([line]);
        } else if (line.word === "serial") {
            [serial, serialLine] = [stringBody(line, line.rest), line];
        } else {
            throw line.mistake(`${line.word} is none of ${FIRST_WORDS.join(", ")}`);
        }
    }
    const configurations = groups.map((group) => group[0]).filter((line) => line.word === "configuration");
    return { entries: groups.map((group) => ({ line: group[0], lines: group, ...entryOf(group, configurations) })), serial, serialLine };
}

// The line of an entry that a byte of its body comes from.
export function lineAt({ line, lines, lengths = [] }, at) {
    let end = 0;
    return lines[lengths.findIndex((length) => at < (end += length))] ?? line;
}

export const piece = ({ type, index, language, body }) => joined([Uint8Array.of(type, index), littleEndian(language, 2), littleEndian(body.length, 2), body]);

// ---- from a set to a text
// A field's value, as a line has it.
function valueText(line, name, size, value, inWords) {
    return (inWords && valueWord(line, name, value)) || (IN_HEXADECIMAL.test(name) ? `0x${hexadecimal(value, 2 * size)}` : `${value}`);
}

// A descriptor by its fields: without those that are 0 unnamed too, but for an interface's number; with the counted ones or without.
function descriptorLine(bytes, counted, inWords) {
    const name = bytes.length > 1 && bytes[0] === bytes.length ? Object.keys(FACTS.fields).find((key) => FACTS.fields[key][0] === bytes[1]) : undefined;
    const fields = name ? FACTS.fields[name][1] : [], end = fields.reduce((sum, [, size]) => sum + size, 2);
    if (!name || bytes.length < end)
        return `${bytes[0] === bytes.length ? "bytes" : "bytes!"} ${spaced(bytes)}`;
    const words = [name];
    let at = 2;
    for (const [field, size, usual] of fields) {
        const value = size === 1 ? bytes[at] : word(bytes, at);
        at += size;
        if (usual === null ? counted : value !== 0 || usual !== 0 || field === "bInterfaceNumber")
            words.push(`${field} ${valueText(name, field, size, value, inWords)}`);
    }
    return [...words, ...(bytes.length > end ? [`more ${spaced(bytes.slice(end))}`] : [])].join(" ");
}

const escaped = (text) => JSON.stringify(text).replace(/[^ -~]/g, (letter) => `\\u${hexadecimal(letter.charCodeAt(0), 4).toLowerCase()}`);

// A text as a line has it: in quotation marks where it would not be read as it stands.
function quoted(text) {
    if (/^(?:[^\p{C}\p{Z}]| )*$/u.test(text) && text === text.trim() && !/^"|(^|\s)#/.test(text))
        return text;
    return escaped(text).replaceAll("#", "\\u0023");
}

// Lines that may say an entry, the most readable first.
function* candidates({ type, index, language, body }, inWords) {
    const languageText = (number) => (inWords ? languageWord(number) : `0x${hexadecimal(number, 4)}`);
    if (type === TYPE.STRING && body.length % 2 === 0) {
        if (index === 0)
            yield [["languages", ...Array.from({ length: Math.max(0, body.length / 2 - 1) }, (_, at) => languageText(word(body, 2 + 2 * at)))].join(" ")];
        yield [`string ${index} ${languageText(language)} ${quoted(letters(body))}`];
    }
    if (type === TYPE.DEVICE || type === TYPE.CONFIGURATION)
        for (const counted of [false, true])
            yield Array.from(cut(body, 0, body.length), ([start, end]) => descriptorLine(body.slice(start, end), counted, inWords));
}

const isSame = (one, other) => one.type === other.type && one.index === other.index && one.language === other.language && alike(one.body, other.body);

// The first lines that are read as this entry behind so many configurations; else its bytes.
function linesOf(entry, configurations, inWords) {
    for (const lines of candidates(entry, inWords)) {
        try {
            const read = readEntries([...Array(configurations).fill("configuration"), ...lines].join("\n")).entries.slice(configurations);
            if (read.length === 1 && isSame(read[0], entry))
                return lines;
        } catch (error) {
            if (!(error instanceof Mistake))
                throw error;
        }
    }
    return [`piece ${entry.type} ${entry.index} 0x${hexadecimal(entry.language, 4)} ${spaced(entry.body)}`];
}

function serialLines(serial) {
    if (serial.length === 0)
        return [];
    if (serial.length % 2 === 1 || serial[0] !== serial.length || serial[1] !== TYPE.STRING)
        throw new Mistake("the serial block is no string, and no text says it");
    return [`serial ${quoted(letters(serial))}`];
}

// The entries with their bodies, where all of them are there.
function wholeEntries(set) {
    const entries = entriesOf(set);
    if (set.length < 4 || entries.length < set[2])
        throw new Mistake(`the set has ${set.length} bytes, and no room for the contents that it counts`);
    for (const { start, offset, length } of entries)
        if (offset + length > set.length)
            throw new Mistake(`the entry at byte ${start} has its body beyond the set's end`);
    return entries.map((entry) => ({ ...entry, body: bodyOf(set, entry) }));
}

// The text of a set and its serial block: what is read from it are the set's entries, in the set's order. In words: `bulk`, `en-US` for numbers.
export function textOf(set, serial, inWords = false) {
    const entries = wholeEntries(set), lines = [];
    let configurations = 0;
    for (const isConfiguration of [true, false])
        entries.forEach((entry, at) => {
            if ((entry.type === TYPE.CONFIGURATION) !== isConfiguration)
                return;
            lines[at] = linesOf(entry, configurations, inWords);
            configurations += lines[at][0].startsWith("configuration") ? 1 : 0;
        });
    const texts = entries.flatMap((entry, at) => [...(entry.type === TYPE.CONFIGURATION || entry.type !== entries[at - 1]?.type ? [""] : []), ...lines[at]]);
    return `${[...texts, ...serialLines(serial)].join("\n").replace(/^\n+/, "")}\n`;
}
