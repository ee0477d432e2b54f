// What else a refused set may be, as makers/kinds.py says it: a set of a pair, a high-speed device's, a SuperSpeed one. The library opens it as each.
import { TYPE } from "./descriptors.js";
import { entriesOf, bodyOf } from "./set.js";
import { mirrors } from "./pairs.js";
import { laidOut } from "./layout.js";
import { Mistake } from "./text.js";
import { kindsOf } from "./board.js";
import { joined } from "./bytes.js";

const SUPER_SPEED = 9;
// The bench set's device and configuration: a small full-speed set to stand beside a high-speed one.
const SMALL_DEVICE = Uint8Array.of(18, 1, 0, 2, 0xFF, 0, 0, 8, 0x34, 0x12, 0x78, 0x56, 0, 1, 0, 0, 0, 1);
const SMALL_CONFIGURATION = Uint8Array.of(9, 2, 25, 0, 1, 1, 0, 0x80, 50, 9, 4, 0, 0, 1, 0xFF, 0, 0, 0, 7, 5, 0x81, 3, 8, 0, 10);

const opened = (number) => (number === 0 ? "it is accepted" : `it is refused with ${number}`);
const ofType = (parts, wanted) => parts.filter(({ type }) => type === wanted);
const part = (type, index, body) => ({ type, index, language: 0, body });

// The other set of a pair, as far as types 6 and 7 of this one say it; strings and numbers are this one's.
function otherOfPair(parts) {
    const [device] = ofType(parts, TYPE.DEVICE), [qualifier] = ofType(parts, TYPE.DEVICE_QUALIFIER);
    if (device?.body.length !== 18 || qualifier?.body.length !== 10)
        throw new Mistake("types 1 and 6 have not their lengths");
    const body = joined([Uint8Array.of(18, TYPE.DEVICE), qualifier.body.slice(2, 8), device.body.slice(8, 17), qualifier.body.slice(8, 9)]);
    const configurations = ofType(parts, TYPE.OTHER_SPEED).map(({ index, body: other }) =>
        part(TYPE.CONFIGURATION, index, joined([other.slice(0, 1), Uint8Array.of(TYPE.CONFIGURATION), other.slice(2)])));
    return whole([part(TYPE.DEVICE, 0, body), ...ofType(parts, TYPE.STRING), ...configurations, ...mirrors(parts)]);
}

function whole(parts) {
    const laid = laidOut(parts);
    if (laid === null)
        throw new Mistake("a set cannot count so much");
    return laid.set;
}

// A set with types 6 and 7: which of the two it is.
function ofPair(library, set, serial, parts) {
    const other = otherOfPair(parts), [asFull, asHigh] = [[set, other], [other, set]].map((sets) => library.open("hk_two_open", sets, serial).number);
    const refused = `(it has types 6 and 7): as the full-speed set ${opened(asFull)}, as the high-speed one ${opened(asHigh)}`;
    if (asFull !== 0 && asHigh !== 0)
        return { kind: "two", at: asHigh > asFull ? 1 : 0, words: `this looks like a set of a pair ${refused}` };
    if (asFull === 0 && asHigh === 0)
        return { kind: "two", at: 0, words: "this looks like a set of a pair: opened as one, beside a set made of its types 6 and 7, it is accepted at either speed" };
    const at = asFull === 0 ? 0 : 1;
    return { kind: "two", at, words: `this looks like the ${["full", "high"][at]}-speed set of a pair: opened as one, beside a set made of its types 6 and 7, it is accepted` };
}

// A set without types 6 and 7 that keeps high speed's limits: beside a small full-speed set it opens.
function highSpeed(library, set, serial, parts) {
    const [device] = ofType(parts, TYPE.DEVICE), small = SMALL_DEVICE.slice();
    if (!device || device.body.length < 17)
        return null;
    small[16] = device.body[16];
    const lists = small[16] === 0 ? [] : ofType(parts, TYPE.STRING).filter(({ index }) => index === 0);
    const beside = [part(TYPE.DEVICE, 0, small), part(TYPE.CONFIGURATION, 0, SMALL_CONFIGURATION), ...lists];
    const { number } = library.open("hk_two_open", [whole([...beside, ...mirrors(parts)]), whole([...parts, ...mirrors(beside)])], serial);
    return number === 0 ? { kind: "two", at: 1, words: "this looks like the set of a high-speed device: with types 6 and 7 it opens as the high-speed set of a pair" } : null;
}

function superSpeed(library, set, serial) {
    return { kind: "super", at: 0, words: `this looks like a SuperSpeed set: opened as one, ${opened(library.open("hk_super_open", [set], serial).number)}` };
}

// { kind, at, words } of a set that is refused as a single one; null where it looks like no other kind.
export function likenessOf(library, set, serial) {
    const parts = entriesOf(set).map((entry) => ({ ...entry, body: bodyOf(set, entry) })), types = parts.map(({ type }) => type), kinds = kindsOf(library);
    const device = ofType(parts, TYPE.DEVICE)[0]?.body ?? [], isWhole = set.length >= 4 + 8 * set[2] && parts.every(({ body, length }) => body.length === length);
    try {
        if (types.includes(TYPE.BOS) || device[7] === SUPER_SPEED)
            return kinds.includes("super") ? superSpeed(library, set, serial) : null;
        if (!kinds.includes("two") || !isWhole)
            return null;
        return types.includes(TYPE.DEVICE_QUALIFIER) || types.includes(TYPE.OTHER_SPEED) ? ofPair(library, set, serial, parts) : highSpeed(library, set, serial, parts);
    } catch (error) {
        if (error instanceof Mistake)
            return null;
        throw error;
    }
}

// Whether a set that is refused as one of a pair, or as a SuperSpeed set, is a single one: in words, or nothing.
export function singleLikeness(library, set, serial) {
    const { number } = library.open("hk_open", [set], serial);
    return number === 0 || number === 6 ? `this looks like a set for one speed: opened as one, ${opened(number)}` : "";
}
