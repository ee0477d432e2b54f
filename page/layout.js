// Parts of a set laid out as the rules say: the frame, the contents by type, language and index, and the bodies in this order.
import { joined, littleEndian } from "./bytes.js";

const before = (one, other) => one.type - other.type || one.language - other.language || one.index - other.index;

// The set, and the parts in its order with the places of their entries and bodies; null where a set cannot count so much.
export function laidOut(parts) {
    const sorted = [...parts].sort(before), contents = 4 + 8 * sorted.length;
    const total = contents + sorted.reduce((sum, { body }) => sum + body.length, 0);
    if (sorted.length > 255 || total > 65535)
        return null;
    let offset = contents;
    const placed = sorted.map((part, at) => ({ part, start: 4 + 8 * at, offset: (offset += part.body.length) - part.body.length }));
    const entries = placed.map(({ part: { type, index, language, body }, offset: start }) =>
        joined([Uint8Array.of(type, index), littleEndian(language, 2), littleEndian(start, 2), littleEndian(body.length, 2)]));
    return { set: joined([littleEndian(total, 2), Uint8Array.of(sorted.length, 0), ...entries, ...sorted.map(({ body }) => body)]), placed };
}
