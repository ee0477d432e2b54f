// A pair of sets, as makers/pairing.py has it: what each says of the other speed, types 6 and 7, made of the other's entries.
import { TYPE } from "./descriptors.js";
import { bodyOf, entriesOf } from "./set.js";
import { laidOut } from "./layout.js";
import { Mistake } from "./text.js";
import { joined } from "./bytes.js";

const MOST_ENTRIES = 64, LONGEST_SET = 16384;
const MIRRORS = [TYPE.DEVICE_QUALIFIER, TYPE.OTHER_SPEED];

const partsOf = (set) => entriesOf(set).map((entry) => ({ ...entry, body: bodyOf(set, entry) }));
const ofType = (parts, wanted) => parts.filter(({ type }) => type === wanted);

export const isOfPair = (set) => MIRRORS.every((wanted) => ofType(partsOf(set), wanted).length > 0);

// Types 6 and 7 for a set, from the entries of the other.
export function mirrors(others) {
    const device = ofType(others, TYPE.DEVICE)[0]?.body ?? [];
    if (device.length < 18)
        throw new Mistake("there is no device descriptor of 18 bytes to make type 6 of");
    const qualifier = joined([Uint8Array.of(10, TYPE.DEVICE_QUALIFIER), device.slice(2, 8), device.slice(17, 18), Uint8Array.of(0)]);
    const configurations = ofType(others, TYPE.CONFIGURATION).map(({ index, body }) =>
        ({ type: TYPE.OTHER_SPEED, index, language: 0, body: joined([body.slice(0, 1), Uint8Array.of(TYPE.OTHER_SPEED), body.slice(2)]) }));
    return [{ type: TYPE.DEVICE_QUALIFIER, index: 0, language: 0, body: qualifier }, ...configurations];
}

function wholeSet(parts) {
    const laid = laidOut(parts), length = 4 + parts.reduce((sum, { body }) => sum + 8 + body.length, 0);
    if (parts.length > MOST_ENTRIES || length > LONGEST_SET)
        throw new Mistake(`${parts.length} entries and ${length} bytes: a set has at most ${MOST_ENTRIES} and ${LONGEST_SET}, types 6 and 7 included`);
    return laid;
}

// The two sets of a board of two speeds, of the entries of each, laid out.
export const pairOfEntries = (full, high) => [wholeSet([...full, ...mirrors(high)]), wholeSet([...high, ...mirrors(full)])];

// A set of a pair without what is made of the other.
export const withoutMirrors = (set) => laidOut(partsOf(set).filter(({ type }) => !MIRRORS.includes(type))).set;
