// What a byte of a set is: its entry, its descriptor, and its field by chapter 9's name, as makers/fields.py has it.
import { FACTS } from "./facts.js";
import { OTHER_FIELDS, TYPE } from "./descriptors.js";
import { bodyOf, entriesOf } from "./set.js";

const HEAD = [["bLength", 1], ["bDescriptorType", 1]];
const WITH_FIELDS = [TYPE.DEVICE_QUALIFIER, TYPE.BOS, TYPE.COMPANION];

// The entries that stand whole in the set, numbered from 1, each with its body as far as the set has it.
export const placedEntries = (set) => entriesOf(set).map((entry, at) => ({ ...entry, number: at + 1, body: bodyOf(set, entry) }));

// Where each descriptor of a body begins, as far as their lengths lead.
export function descriptorsIn(body) {
    const found = [];
    for (let at = 0; at < body.length; at += Math.max(body[at], 1))
        found.push(at);
    return found;
}

// The field of a row of fields, which begins at `start`, that holds a byte.
function fieldIn(fields, start, place) {
    let at = start;
    for (const [name, size] of fields) {
        if (place >= at && place < at + size)
            return { name, start: at, size };
        at += size;
    }
    return null;
}

// The fields of a descriptor of a type, with their sizes.
function fieldsOf(type) {
    const listed = Object.values(FACTS.fields).find(([kind]) => kind === (type === TYPE.OTHER_SPEED ? TYPE.CONFIGURATION : type));
    return [...HEAD, ...(listed ? listed[1] : WITH_FIELDS.includes(type) ? OTHER_FIELDS[type] : [])];
}

// The field of a configuration's body, which begins at `start`.
function descriptorField(body, start, place) {
    const at = Math.max(0, ...descriptorsIn(body).filter((one) => start + one <= place));
    return fieldIn(fieldsOf(body[at + 1] ?? 0), start + at, place) ?? { name: `byte ${place - start - at} of its descriptor`, start: place, size: 1 };
}

const UNNAMED = (place) => ({ name: "", start: place, size: 1 });

function bodyField({ type, index, offset, body }, place) {
    if ([TYPE.CONFIGURATION, TYPE.OTHER_SPEED, TYPE.BOS].includes(type))
        return descriptorField(body, offset, place);
    if (type === TYPE.DEVICE || type === TYPE.DEVICE_QUALIFIER)
        return fieldIn(fieldsOf(type), offset, place) ?? UNNAMED(place);
    if (type === TYPE.STRING && index === 0 && place >= offset + 2) {
        const at = (place - offset - 2) >> 1;
        return { name: `wLANGID[${at}]`, start: offset + 2 + 2 * at, size: 2 };
    }
    return fieldIn(HEAD, offset, place) ?? UNNAMED(place);
}

// The entry whose body holds a byte.
export const entryAt = (set, place) => placedEntries(set).find(({ offset, length }) => place >= offset && place < offset + length);

// The field of a set that holds a byte.
export function fieldAt(set, place) {
    const entries = placedEntries(set);
    if (place < 4)
        return fieldIn(FACTS.frame, 0, place);
    if (place < 4 + 8 * entries.length) {
        const entry = entries[(place - 4) >> 3], field = fieldIn(FACTS.entry, entry.start, place);
        return { ...field, name: `${field.name} of entry ${entry.number}` };
    }
    const entry = entryAt(set, place);
    return entry ? bodyField(entry, place) : UNNAMED(place);
}

export const serialField = (place) => fieldIn(HEAD, 0, place) ?? UNNAMED(place);
