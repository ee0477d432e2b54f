// A fault in words, as makers/faults.py has it: the rule, the byte by its field, what was found there, and what should stand there or may. The library says
// rule and byte.
import { TYPE } from "./descriptors.js";
import { descriptorsIn, entryAt, fieldAt, placedEntries, serialField } from "./fields.js";
import { ruleOf } from "./rules.js";
import { KINDS, SERIAL } from "./board.js";
import { languageName } from "./values.js";
import { countWords, hexadecimal, joined, littleEndian, spaced, word } from "./bytes.js";

// What is lent is { kind, sets, serial }, as a board has it; a fault is { number, rule, place, block }.
const bytesOf = ({ sets, serial }, block) => (block === SERIAL ? serial : sets[block]);
export const blockName = ({ kind }, block) => (block === SERIAL ? "the serial block" : `the ${kind === "two" ? KINDS.two.sets[block] : "set"}`);
export const limitsOf = ({ kind }, block) => KINDS[kind].limits[block === SERIAL ? 0 : block];
const numberOf = (bytes) => bytes.reduce((sum, byte, at) => sum + byte * 256 ** at, 0);

const ofType = (set, wanted) => placedEntries(set).filter(({ type }) => type === wanted);

// ---- what has to stand at a byte, and why, where one value alone will do: [value, reason], or null
function rightOffset(set, serial, place) {
    const at = (place - 4) >> 3, contents = 4 + 8 * set[2];
    if (at === 0)
        return [contents, `the contents end at byte ${contents}`];
    const before = placedEntries(set)[at - 1], end = before.offset + before.length;
    return [end, `the body before it ends at byte ${end}`];
}

function rightLastLength(set) {
    const length = set.length - placedEntries(set).at(-1).offset;
    return length >= 2 ? [length, `the set ends at byte ${set.length}`] : null;
}

function rightConfigurations(set) {
    const count = ofType(set, TYPE.CONFIGURATION).length;
    return count >= 1 && count <= 8 ? [count, `there ${count > 1 ? "are" : "is"} ${countWords(count, "configuration")}`] : null;
}

function rightIndex(set, serial, place) {
    const before = ofType(set, TYPE.CONFIGURATION).filter(({ start }) => start < place - 1).length;
    return [before, `${countWords(before, "configuration")} ${before !== 1 ? "stand" : "stands"} before it`];
}

function rightTotal(set, serial, place) {
    const { length } = entryAt(set, place);
    return [length, `the body has ${countWords(length, "byte")}`];
}

const settingsIn = (body) => descriptorsIn(body).filter((at) => body[at + 1] === TYPE.INTERFACE && at + 4 < body.length);

function rightInterfaces(set, serial, place) {
    const { body } = entryAt(set, place), count = new Set(settingsIn(body).map((at) => body[at + 2])).size;
    return count >= 1 && count <= 16 ? [count, `${countWords(count, "interface number")} ${count > 1 ? "follow" : "follows"}`] : null;
}

function rightEndpoints(set, serial, place) {
    const { body, offset } = entryAt(set, place), here = place - 4 - offset, end = settingsIn(body).find((at) => at > here) ?? body.length;
    const count = descriptorsIn(body).filter((at) => at > here && at < end && body[at + 1] === TYPE.ENDPOINT).length;
    return [count, `${countWords(count, "endpoint")} ${count !== 1 ? "follow" : "follows"} before the next interface or the end`];
}

function rightStringLength(set, serial, place) {
    const { length } = entryAt(set, place);
    return length < 256 ? [length, `its entry's length is ${length}`] : null;
}

function rightStoreLength(set, serial, place) {
    const { length } = entryAt(set, place);
    return [length, `the BOS has ${countWords(length, "byte")}`];
}

const always = (value, ...rules) => rules.map((rule) => [rule, () => [value, ""]]);

const EXACT = {
    103: (set) => [set.length, `the file has ${countWords(set.length, "byte")}`],
    204: rightOffset, 205: rightLastLength, 309: rightConfigurations, 310: rightConfigurations, 311: rightConfigurations, 401: rightIndex,
    407: rightTotal, 414: rightInterfaces, 415: rightInterfaces, 419: rightInterfaces, 421: rightEndpoints, 501: rightStringLength,
    605: (set, serial) => [serial.length, `the block has ${countWords(serial.length, "byte")}`],
    316: rightStoreLength,
    ...Object.fromEntries([
        ...always(0, 106, 302, 303, 313, 314, 402, 416, 417, 2402, 2403, 2408), ...always(18, 304, 305), ...always(1, 306), ...always(2, 405), ...always(3, 502, 606), ...always(10, 2404),
    ]),
};
// Where one value alone will do by the limits of a speed.
const EXACT_BY_LIMITS = { high: { 307: 64, 428: 512 }, super: { 307: 9, 428: 1024 } };

// ---- a pair: what a set has to have, by the other
// The type 6 or 7 entry that a byte belongs to, the entry of the other set that it is made of, and the body that it should have; null if it is one too many.
export function mirrored({ sets }, block, place) {
    const set = sets[block], other = sets[1 - block], entries = placedEntries(set), entry = place < 4 + 8 * entries.length ? entries[(place - 4) >> 3] : entryAt(set, place);
    if (entry.type === TYPE.DEVICE_QUALIFIER) {
        const [device] = ofType(other, TYPE.DEVICE);
        return { entry, original: device, body: joined([Uint8Array.of(10, TYPE.DEVICE_QUALIFIER), device.body.slice(2, 8), device.body.slice(17, 18), Uint8Array.of(0)]) };
    }
    const before = entries.filter(({ type, start }) => type === TYPE.OTHER_SPEED && start < entry.start).length, original = ofType(other, TYPE.CONFIGURATION)[before];
    return original ? { entry, original, body: joined([original.body.slice(0, 1), Uint8Array.of(TYPE.OTHER_SPEED), original.body.slice(2)]) } : null;
}

// The value that the other set makes it have.
function rightByOther(lent, { rule, place, block }) {
    const found = mirrored(lent, block, place), field = fieldAt(lent.sets[block], place);
    if (found === null)
        return null;
    if (rule === 2407 || rule === 2409)
        return [rule === 2407 ? found.original.index : found.original.length, ""];
    return [numberOf(found.body.slice(field.start - found.entry.offset, field.start - found.entry.offset + field.size)), ""];
}

const BY_OTHER = [2405, 2407, 2409, 2410];

// The one value that will do, and why; null where there are several or none.
export function shouldBe(lent, fault) {
    if (BY_OTHER.includes(fault.rule))
        return rightByOther(lent, fault);
    const limited = fault.block === SERIAL ? undefined : EXACT_BY_LIMITS[limitsOf(lent, fault.block)]?.[fault.rule];
    return limited !== undefined ? [limited, ""] : EXACT[fault.rule]?.(lent.sets[fault.block] ?? lent.sets[0], lent.serial, fault.place) ?? null;
}

// ---- entries that are missing: they are told where they have to stand
const ABSENT = { 312: TYPE.BOS, 2401: TYPE.DEVICE_QUALIFIER, 2406: TYPE.OTHER_SPEED };

// Whether a rule tells of an entry that is not there, rather than of one too many.
export const isAbsent = (set, { rule, place }) => rule in ABSENT && placedEntries(set)[(place - 4) >> 3]?.type !== ABSENT[rule];

// ---- what else helps
// The configuration's interfaces and endpoints before a byte: where each begins, its type, its interface and alternate setting.
function settingsAndEndpoints(set, place) {
    const { body, offset } = entryAt(set, place), found = [];
    let setting = [null, null];
    for (const at of descriptorsIn(body)) {
        if (offset + at + 2 > place || at + 3 >= body.length)
            break;
        if (body[at + 1] === TYPE.INTERFACE)
            setting = [body[at + 2], body[at + 3]];
        if (body[at + 1] === TYPE.INTERFACE || body[at + 1] === TYPE.ENDPOINT)
            found.push({ start: offset + at, type: body[at + 1], setting });
    }
    return found;
}

// The interface before the one at fault.
function remarkBefore(set, serial, place) {
    const { body, offset } = entryAt(set, place), start = Math.max(...descriptorsIn(body).map((at) => offset + at).filter((at) => at <= place));
    const [number, alternate] = settingsAndEndpoints(set, place).filter((row) => row.type === TYPE.INTERFACE && row.start < start).at(-1).setting;
    return `before it stands interface ${number}, alternate setting ${alternate}: next comes interface ${number}, alternate setting ${alternate + 1}, `
        + `or interface ${number + 1}, alternate setting 0`;
}

// Where the same address stands before.
function remarkAddress(set, serial, place) {
    const rows = settingsAndEndpoints(set, place).filter(({ type }) => type === TYPE.ENDPOINT), here = rows.pop().setting;
    const same = rows.find(({ start, setting }) => set[start + 2] === set[place] && (setting[0] !== here[0] || setting[1] === here[1]));
    return same ? `the endpoint at byte ${same.start} has it too, in interface ${same.setting[0]}, alternate setting ${same.setting[1]}` : "";
}

function remarkValue(set, serial, place) {
    const other = ofType(set, TYPE.CONFIGURATION).find(({ offset, body }) => offset + 5 < place && body[5] === set[place]);
    return other ? `the configuration at byte ${other.offset} has it too` : "";
}

function remarkOrder(set, serial, place) {
    const before = placedEntries(set)[((place - 4) >> 3) - 1];
    return `entry ${before.number} before it has type ${before.type}, index ${before.index}, language ${hexadecimal(before.language, 4)}`;
}

function remarkEnd(set, serial, place) {
    const { offset, length } = entryAt(set, place);
    return `it would end at byte ${place + set[place]}, and its body ends at byte ${offset + length}`;
}

// The languages that string 0 lists; null without string 0.
function languagesOf(set) {
    const list = ofType(set, TYPE.STRING).find(({ index, language }) => index === 0 && language === 0);
    return list ? Array.from({ length: Math.max(0, list.body.length - 2) >> 1 }, (_, at) => word(list.body, 2 + 2 * at)) : null;
}

const languageList = (languages) => languages.map(languageName).join(", ") || "no language";

// The listed languages in which a string is not there.
function missingLanguages(set, wanted) {
    const there = ofType(set, TYPE.STRING);
    return (languagesOf(set) ?? []).filter((listed) => !there.some(({ index, language }) => index === wanted && language === listed));
}

const remarkReference = (set, serial, place) => `string ${set[place]} is missing in ${languageList(missingLanguages(set, set[place]))}`;

// A string whose index and language do not go together: either may be the wrong one.
function remarkNumbers(set, serial, place) {
    const { index, language } = placedEntries(set)[(place - 4) >> 3];
    return `this entry has index ${index} and language ${hexadecimal(language, 4)}; string 0 has index 0 and language 0000, a string neither`;
}

// A reference without string 0, or strings without it.
function remarkNoList(set, serial, place) {
    return place >= 4 + 8 * placedEntries(set).length ? `this names string ${set[place]}, and the set has no string 0` : "the set has strings, and no string 0";
}

// iSerialNumber of a set whose device is good.
const serialIndex = (set) => ofType(set, TYPE.DEVICE)[0].body[16];

function remarkSerial(set, serial) {
    const named = `this set names a serial number (string ${serialIndex(set)})`;
    return serial.length === 0 ? `${named}: give a serial block` : `${named}, and the block has ${countWords(serial.length, "byte")}`;
}

// ---- remarks on a pair and on a SuperSpeed set
const DESCRIPTORS = {
    [TYPE.CONFIGURATION]: "a configuration descriptor", [TYPE.INTERFACE]: "an interface descriptor", [TYPE.ENDPOINT]: "an endpoint descriptor",
    [TYPE.OTHER_SPEED]: "an other_speed_configuration descriptor", [TYPE.COMPANION]: "an endpoint companion",
};
const typeWords = (type) => DESCRIPTORS[type] ?? `a descriptor of type ${hexadecimal(type)}`;

function remarkStore({ sets: [set] }) {
    const [there] = ofType(set, TYPE.BOS);
    return there ? `entry ${there.number} is a BOS already` : "this set has no BOS";
}

// What stands behind the endpoint that lacks its companion.
function remarkCompanion({ sets: [set] }, { place }) {
    const { offset, body } = entryAt(set, place), behind = place - offset + set[place];
    return behind + 1 < body.length ? `behind it stands ${typeWords(body[behind + 1])} at byte ${offset + behind}` : "its configuration ends behind it";
}

function remarkStray({ sets: [set] }, { place }) {
    const { offset, body } = entryAt(set, place), before = descriptorsIn(body).filter((at) => offset + at < place - 1).at(-1);
    return before === undefined ? "" : `before it stands ${typeWords(body[before + 1])} at byte ${offset + before}`;
}

function remarkQualifier(lent, { block }) {
    const [there] = ofType(lent.sets[block], TYPE.DEVICE_QUALIFIER);
    return there ? `entry ${there.number} has type 6 already` : `${blockName(lent, block)} has no type 6 entry`;
}

function remarkCounts(lent, { block }) {
    const here = ofType(lent.sets[block], TYPE.OTHER_SPEED).length, there = ofType(lent.sets[1 - block], TYPE.CONFIGURATION).length;
    return `${blockName(lent, 1 - block)} has ${countWords(there, "configuration")}, ${blockName(lent, block)} ${here} type 7 ${here === 1 ? "entry" : "entries"}`;
}

function remarkOtherEntry(lent, { rule, block, place }) {
    const { original } = mirrored(lent, block, place), has = rule === 2407 ? `index ${original.index}` : countWords(original.length, "byte");
    return `entry ${original.number} of ${blockName(lent, 1 - block)} has ${has}`;
}

// What the other set has there; bytes that are its own in every type 6 or 7 are in none.
function remarkOtherByte(lent, { block, place }) {
    const { entry, original } = mirrored(lent, block, place), at = place - entry.offset, isQualifier = entry.type === TYPE.DEVICE_QUALIFIER;
    if (isQualifier ? at < 2 || at > 8 : at === 1)
        return "";
    const other = lent.sets[1 - block], there = original.offset + (isQualifier && at === 8 ? 17 : at), field = fieldAt(other, there);
    const has = inBytes(numberOf(other.slice(field.start, field.start + field.size)), field.size);
    return `byte ${there} of ${blockName(lent, 1 - block)}${field.name ? `, ${field.name},` : ""} has ${has}`;
}

const REMARKS = {
    202: remarkOrder, 404: remarkEnd, 418: remarkBefore, 433: remarkAddress, 434: remarkAddress, 436: remarkValue,
    504: remarkNumbers, 508: (set, serial, place) => `the language before it is ${languageName(word(set, place - 2))}`,
    509: (set) => `string 0 lists ${languageList(languagesOf(set))}`,
    510: remarkNoList, 511: (set) => `iSerialNumber is ${serialIndex(set)}`, 512: remarkReference,
    601: () => "iSerialNumber is 0: this set names no serial number", 603: remarkSerial,
};

const REMARKS_OF_KINDS = {
    312: remarkStore, 438: remarkCompanion, 439: remarkStray, 2401: remarkQualifier, 2405: remarkOtherByte, 2406: remarkCounts, 2407: remarkOtherEntry,
    2409: remarkOtherEntry, 2410: remarkOtherByte,
};

// The set that a fault is about; of the serial block, the one whose iSerialNumber it is judged by.
function namedBy({ sets }, { block, rule }) {
    return sets[block] ?? sets.find((set) => rule !== 601 && ofType(set, TYPE.DEVICE).length > 0 && serialIndex(set) !== 0) ?? sets[0];
}

function remarkOn(lent, fault) {
    return REMARKS_OF_KINDS[fault.rule]?.(lent, fault) ?? REMARKS[fault.rule]?.(namedBy(lent, fault), lent.serial, fault.place) ?? "";
}

// ---- the words
const inBytes = (value, size) => `${spaced(littleEndian(value, size))} (${value})`;

// The field at fault; of an entry that is not there, where it has to stand.
function fieldOf({ sets }, fault) {
    if (fault.block === SERIAL)
        return serialField(fault.place);
    const set = sets[fault.block], isBehind = isAbsent(set, fault) && fault.place >= 4 + 8 * placedEntries(set).length;
    return isBehind ? { name: "behind the last entry", start: fault.place, size: 0 } : fieldAt(set, fault.place);
}

function foundIn(lent, fault, { start, size }) {
    const here = bytesOf(lent, fault.block).slice(start, start + size);
    return size === 0 ? "no entry" : here.length > 0 ? inBytes(numberOf(here), here.length) : "";
}

// All there is to say of a fault, part by part.
export function wordsOf(lent, fault) {
    const field = fieldOf(lent, fault), exact = shouldBe(lent, fault), rule = ruleOf(fault.rule, limitsOf(lent, fault.block));
    return {
        rule: rule.rule, allowed: rule.words, block: blockName(lent, fault.block), place: fault.place, field: field.name, found: foundIn(lent, fault, field),
        should: exact && exact[0] < 256 ** field.size ? `${inBytes(exact[0], field.size)}${exact[1] ? `: ${exact[1]}` : ""}` : "",
        remark: remarkOn(lent, fault),
    };
}

// What was found at the byte, and what should be or may.
export function foundWords({ block, found, should, allowed }) {
    const wanted = should ? `should be ${should}` : `allowed: ${allowed}`;
    return found ? `found ${found}, ${wanted}` : `${block} is empty`;
}

// A fault on one line.
export function brief(lent, fault) {
    const words = wordsOf(lent, fault), where = words.found ? `byte ${words.place} of ${words.block}${words.field ? `, ${words.field}` : ""}: ` : "";
    return `rule ${fault.rule}: ${words.rule}; ${where}${foundWords(words)}${words.remark ? `; ${words.remark}` : ""}`;
}
