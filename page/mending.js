// Goes on past a fault, on a copy, as makers/mending.py does: mends it as it was told and asks again, so that all faults are told at once. What cannot be
// mended in place is set aside. Behind a fault of the frame or of the contents nothing is told of that set: nothing stands where it says.
import { TYPE } from "./descriptors.js";
import { isAbsent, limitsOf, mirrored, shouldBe } from "./faults.js";
import { descriptorsIn, fieldAt, placedEntries } from "./fields.js";
import { laidOut } from "./layout.js";
import { mirrors } from "./pairs.js";
import { KINDS, SERIAL } from "./board.js";
import { littleEndian, word } from "./bytes.js";

export const MOST_TOLD = 20;
const MOST_MENDED = 4 * MOST_TOLD;
const CLASS_SPECIFIC = 0x24, ENGLISH = 0x0409, IN = 0x80, NUMBERS = 15, MOST_LANGUAGES = 4;
// A configuration that breaks no rule, for one that is set aside; its value is filled in.
const PLAIN = [9, 2, 18, 0, 1, 0, 0, 0x80, 50, 9, 4, 0, 0, 0, 255, 0, 0, 0];
const PLAIN_BOS = [5, TYPE.BOS, 5, 0, 0], PLAIN_COMPANION = [6, TYPE.COMPANION, 0, 0, 0, 0];

// A set whose contents are right, taken apart, and as it was given until something is mended: each part is an entry, and knows the one of the set that it was
// (none if it was added) and the place of each of its bytes there.
class Copy {
    constructor(set, limits) {
        Object.assign(this, { set, limits, isMended: false });
        this.parts = placedEntries(set).map((entry) => ({
            type: entry.type, index: entry.index, language: entry.language, body: Array.from(entry.body), origin: entry, places: Array.from(entry.body, (_, at) => entry.offset + at),
        }));
    }

    laidOut() {
        if (!this.isMended)
            return this.set;
        const { set, placed } = laidOut(this.parts);
        this.parts = placed.map(({ part }) => part);
        return set;
    }

    // The part that a byte belongs to, whether it stands in the contents, and where in its entry or its body.
    find(place) {
        let start = 4 + 8 * this.parts.length;
        if (place < start)
            return { part: this.parts[(place - 4) >> 3], inContents: true, at: (place - 4) % 8 };
        for (const part of this.parts) {
            if (place < start + part.body.length)
                return { part, inContents: false, at: place - start };
            start += part.body.length;
        }
        return null;
    }

    ofType(wanted) {
        return this.parts.filter(({ type }) => type === wanted);
    }

    add(type, index, body) {
        this.parts.push({ type, index, language: 0, body: Array.from(body), origin: null, places: [] });
        return true;
    }

    freeValue() {
        const taken = new Set(this.ofType(TYPE.CONFIGURATION).map(({ body }) => body[5]));
        let value = 1;
        while (taken.has(value))
            value++;
        return value;
    }

    drop(part) {
        this.parts.splice(this.parts.indexOf(part), 1);
        return true;
    }

    setAside(part) {
        part.body = PLAIN.slice();
        part.body[5] = this.freeValue();
        return true;
    }

    // String 0 with the languages that strings are in; added, if there is none.
    listLanguages(list) {
        const spoken = new Set(this.ofType(TYPE.STRING).map(({ language }) => language).filter((language) => language !== 0));
        const used = [...spoken].sort((one, next) => one - next).slice(0, MOST_LANGUAGES);
        const listed = used.length > 0 ? used : [ENGLISH], body = [2 + 2 * listed.length, TYPE.STRING, ...listed.flatMap((language) => [...littleEndian(language, 2)])];
        if (list)
            list.body = body;
        else
            this.add(TYPE.STRING, 0, body);
        return true;
    }

    listed() {
        const list = this.ofType(TYPE.STRING).find(({ index }) => index === 0);
        return list ? Array.from({ length: Math.max(0, list.body.length - 2) >> 1 }, (_, at) => word(list.body, 2 + 2 * at)) : [];
    }

}

// ---- how each is mended where several values will do: the new byte at the place, or undefined
// An address of the same direction that no endpoint of the configuration has.
function freeAddress({ body }, at) {
    const taken = new Set(descriptorsIn(body).filter((start) => body[start + 1] === TYPE.ENDPOINT).map((start) => body[start + 2]));
    return Array.from({ length: NUMBERS }, (_, before) => before + 1 + (body[at] & IN)).find((address) => !taken.has(address));
}

// By the limits of a speed: bMaxPacketSize0; sizes of bulk endpoints; the most of an interrupt and of an isochronous one; an interrupt endpoint's longest interval.
const FULL_SPEED = { control: 64, bulk: [64, 8, 16, 32], interrupt: 64, isochronous: 1023, interval: 255 };
const FITTING = {
    alone: FULL_SPEED, paired: FULL_SPEED, high: { control: 64, bulk: [512], interrupt: 1024, isochronous: 1024, interval: 16 },
    super: { control: 9, bulk: [1024], interrupt: 1024, isochronous: 1024, interval: 16 },
};

// A transfer type that the endpoint's size and interval fit.
function fittingType({ body }, at, limits) {
    const size = word(body, at + 1), { bulk, interrupt, interval } = FITTING[limits];
    return bulk.includes(size) ? 2 : size <= interrupt && body[at + 3] >= 1 && body[at + 3] <= interval ? 3 : 1;
}

function fittingSize(rule, limits) {
    const { bulk, interrupt, isochronous } = FITTING[limits];
    return { 428: bulk[0], 429: interrupt, 430: isochronous }[rule];
}

const interfacesIn = (body) => descriptorsIn(body).filter((start) => body[start + 1] === TYPE.INTERFACE);

// The alternate setting that may stand behind the interface before.
function followingAlternate({ body }, at) {
    const before = interfacesIn(body).filter((start) => start + 3 < at).at(-1);
    return body[at - 1] === body[before + 2] ? body[before + 3] + 1 : 0;
}

// At the number: one higher than before; at the alternate setting: what follows.
function followingSetting(part, at) {
    const start = Math.max(...descriptorsIn(part.body).filter((one) => one <= at)), before = interfacesIn(part.body).filter((one) => one < start).at(-1);
    return at === start + 2 ? part.body[before + 2] + 1 : followingAlternate(part, at);
}

const BYTES = {
    308: () => 0, 410: () => 250, 411: () => CLASS_SPECIFIC, 408: ({ body }, at) => (body[at] | 0x80) & 0xE0, 409: ({ body }, at) => body[at] & 0xE0,
    418: followingSetting, 423: ({ body }, at) => body[at] & 0x8F, 424: freeAddress, 425: ({ body }, at) => body[at] & 0x3F,
    427: ({ body }, at) => body[at] & 3, 431: () => 10, 432: () => 1, 433: freeAddress, 434: freeAddress, 439: () => CLASS_SPECIFIC, 512: () => 0,
};
const SIZES = [428, 429, 430], VALUES = [435, 436], LANGUAGE_LISTS = [505, 506, 507, 508], COMPANIONS = [437, 438];
const EXACT_IN_PLACE = [305, 306, 309, 310, 311, 316, 407, 414, 415, 416, 417, 419, 421, 501, 502, 2405, 2410];

function put(part, at, value, size = 1) {
    if (value === undefined || value >= 256 ** size)
        return false;
    part.body.splice(at, size, ...littleEndian(value, size));
    return true;
}

// More bytes in a configuration, whose wTotalLength follows.
function insert(part, at, bytes) {
    part.body.splice(at, 0, ...bytes);
    part.places.splice(at, 0, ...bytes.map(() => null));
    return put(part, 2, part.body.length, 2);
}

// 437: a companion gets the bytes that it lacks; 438: one is put behind the endpoint.
function mendCompanion(part, at, rule) {
    const length = part.body[at];
    if (rule === 438)
        return insert(part, at + length, PLAIN_COMPANION);
    part.body[at] = PLAIN_COMPANION.length;
    return insert(part, at + length, PLAIN_COMPANION.slice(length));
}

// What a speed's limits say: bMaxPacketSize0, a transfer type, a size.
function mendByLimits({ limits }, part, at, rule) {
    if (rule === 307)
        return put(part, at, FITTING[limits].control);
    return rule === 426 ? put(part, at, fittingType(part, at, limits)) : put(part, at, fittingSize(rule, limits), 2);
}

// A fault at a byte of a body; false where it cannot be mended.
function mendBody(copy, { part, at }, { rule, place }, exact, field) {
    if (EXACT_IN_PLACE.includes(rule) && exact)
        return put(part, at - (place - field.start), exact[0], field.size);
    if (rule in BYTES)
        return put(part, at, BYTES[rule](part, at));
    if ([307, 426, ...SIZES].includes(rule))
        return mendByLimits(copy, part, at, rule);
    if (VALUES.includes(rule))
        return put(part, at, copy.freeValue());
    if (COMPANIONS.includes(rule))
        return mendCompanion(part, at, rule);
    if (LANGUAGE_LISTS.includes(rule))
        return copy.listLanguages(part);
    if (rule === 510)
        return put(part, at, 0);
    if (part.type === TYPE.STRING) {
        part.body = [2, TYPE.STRING];
        return true;
    }
    return part.type === TYPE.CONFIGURATION && copy.setAside(part);
}

// Whether a string that is not numbered as string 0 may be it: there is no other, and it lists the languages of all others.
function isList(copy, part) {
    const others = copy.ofType(TYPE.STRING).filter((other) => other !== part), { body } = part;
    const listed = new Set(Array.from({ length: Math.max(0, body.length - 2) >> 1 }, (_, at) => word(body, 2 + 2 * at)));
    return others.every(({ index, language }) => index !== 0 || language !== 0) && others.every(({ language }) => language === 0 || listed.has(language));
}

// 504: string 0 gets its numbers, a string the first listed language that lacks it; what cannot is dropped.
function mendLanguage(copy, part) {
    if (isList(copy, part)) {
        part.index = part.language = 0;
        return true;
    }
    const there = copy.ofType(TYPE.STRING), lacks = (listed) => !there.some(({ index, language }) => index === part.index && language === listed);
    const lacking = copy.listed().filter(lacks);
    if (part.index === 0 || lacking.length === 0)
        return copy.drop(part);
    part.language = lacking[0];
    return true;
}

const FIELDS = Object.fromEntries([...[302, 313, 401, 2402, 2407].map((rule) => [rule, "index"]), ...[303, 314, 402, 2403, 2408].map((rule) => [rule, "language"])]);
const DROPPED = [312, 509, 511, 2401, 2406], BODIES = [2404, 2409];

// A fault at an entry of the contents; `right` is the body that the other set of a pair makes it have.
function mendEntry(copy, { part }, { rule }, exact, right) {
    if (rule === 504)
        return mendLanguage(copy, part);
    if (DROPPED.includes(rule))
        return copy.drop(part);
    if (rule === 510)
        return copy.listLanguages(null);
    if (rule === 315 || BODIES.includes(rule))
        part.body = Array.from(rule === 315 ? PLAIN_BOS : right);
    else if (rule in FIELDS)
        part[FIELDS[rule]] = exact[0];
    else
        return false;
    return true;
}

// An entry that is not there: a BOS, or what the other set makes of itself.
function addAbsent(copies, { rule, block }) {
    if (rule === 312)
        return copies[0].add(TYPE.BOS, 0, PLAIN_BOS);
    const others = copies[1 - block].parts.map((part) => ({ ...part, body: Uint8Array.from(part.body) })), [qualifier, ...configurations] = mirrors(others);
    const made = rule === 2401 ? qualifier : configurations[copies[block].ofType(TYPE.OTHER_SPEED).length];
    return copies[block].add(made.type, made.index, made.body);
}

// Whether the copies, laid out as `now`, could be mended of this fault.
function mend(copies, now, fault) {
    const copy = copies[fault.block], set = now.sets[fault.block];
    copy.isMended = true;
    if (isAbsent(set, fault))
        return addAbsent(copies, fault);
    const found = copy.find(fault.place), exact = shouldBe(now, fault);
    if (found.inContents)
        return mendEntry(copy, found, fault, exact, BODIES.includes(fault.rule) ? mirrored(now, fault.block, fault.place).body : null);
    return mendBody(copy, found, fault, exact, fieldAt(set, fault.place));
}

// ---- going on
// Where an entry that is not there has to stand in the set that was given.
const placeOfAbsent = (set, { rule }) => 4 + 8 * placedEntries(set).filter(({ type }) => rule !== 2401 || type < TYPE.DEVICE_QUALIFIER).length;

// The fault at its byte of the set that was given; null if what it is at was added.
function originalOf(lent, copies, now, fault) {
    if (isAbsent(now.sets[fault.block], fault))
        return { ...fault, place: placeOfAbsent(lent.sets[fault.block], fault) };
    const { part, inContents, at } = copies[fault.block].find(fault.place);
    const place = inContents ? part.origin && part.origin.start + at : part.places[at] ?? null;
    return place === null ? null : { ...fault, place };
}

// Whether two sets that were given agree where their copies no longer do, since one of them was mended.
function isOfMending(lent, fault) {
    const set = lent.sets[fault.block];
    if (fault.number !== 24 || isAbsent(set, fault))
        return false;
    const exact = shouldBe(lent, fault), { start, size } = fieldAt(set, fault.place);
    return exact !== null && exact[0] === set.slice(start, start + size).reduce((sum, byte, at) => sum + byte * 256 ** at, 0);
}

// The iSerialNumber that the serial block is judged by: of a pair the high-speed set's where the full-speed set has none. Null without a whole device.
function serialIndexOf({ sets }) {
    const devices = sets.flatMap((set) => placedEntries(set).filter(({ type }) => type === TYPE.DEVICE).map(({ body }) => body));
    return devices.find((body) => body.length === 18 && body[16] !== 0)?.[16] ?? (devices[0]?.length === 18 ? 0 : null);
}

// The fault that ends it, unless mending made it.
function lastOf(lent, copies, now, fault) {
    if (fault.block === SERIAL)
        return [null, serialIndexOf(now)].includes(serialIndexOf(lent)) ? [fault] : [];
    return copies[fault.block].isMended ? [] : [fault];
}

const isTold = (told, { block, place }) => told.some((other) => other.block === block && other.place === place);

// The faults of what is lent, as { kind, sets, serial }, in the order in which they are met by whoever mends each as it is told, each at its byte of the set
// that was given.
export function faultsOf(library, lent) {
    const copies = lent.sets.map((set, block) => new Copy(set, limitsOf(lent, block))), told = [];
    for (let mended = 0; mended < MOST_MENDED; mended++) {
        const now = { ...lent, sets: copies.map((copy) => copy.laidOut()) }, fault = library.explain(KINDS[lent.kind].explain, now.sets, lent.serial);
        if (fault.rule === 0 || told.length === MOST_TOLD)
            break;
        if ([1, 2, 6].includes(fault.number))
            return [...told, ...lastOf(lent, copies, now, fault)];
        const original = originalOf(lent, copies, now, fault);
        if (original && told.some((other) => other.rule === original.rule && isTold([other], original)))
            break;
        if (original && !isOfMending(lent, original) && !isTold(told, original))
            told.push(original);
        if (!mend(copies, now, fault))
            break;
    }
    return told;
}
