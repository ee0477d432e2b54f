// Two sets side by side: which descriptors belong together, and the fields in which they differ.
import { leavesOf, treeOf } from "./set.js";
import { alike } from "./bytes.js";

const MOST_CELLS = 4e6; // of a table of all against all
const SAME = 3, RELATED = 1;

// What makes a descriptor the same one in another set, whatever else it says.
function identity({ kind, title }, bytes) {
    if (kind === "endpoint")
        return `endpoint ${bytes[2]}`;
    if (kind === "interface")
        return `interface ${bytes[2]} ${bytes[3]}`;
    if (kind === "string")
        return title.startsWith("languages") ? "languages" : title.split(":")[0];
    return `${kind} ${bytes[1]}`;
}

// The descriptors and strings of a set; where they stand in it is left out.
function rowsOf(set, kind) {
    const nodes = [...leavesOf(treeOf(set, kind).nodes)].filter((node) => node.kind !== "frame" && node.kind !== "entry");
    return nodes.map((node) => {
        const bytes = set.subarray(node.start, node.end);
        return { node, bytes, identity: identity(node, bytes), key: `${identity(node, bytes)} ${bytes.join(" ")}` };
    });
}

const likeness = (one, other) => (one.key === other.key ? SAME : one.identity === other.identity ? RELATED : 0);

// Rows of both, one after the other, each with its partner or alone: by the table of the best likeness of all that is left.
function aligned(ones, others) {
    const width = others.length + 1, best = new Uint32Array((ones.length + 1) * width), rows = [];
    for (let i = ones.length - 1; i >= 0; i--)
        for (let j = others.length - 1; j >= 0; j--) {
            const like = likeness(ones[i], others[j]);
            best[i * width + j] = Math.max(best[(i + 1) * width + j], best[i * width + j + 1], like > 0 ? like + best[(i + 1) * width + j + 1] : 0);
        }
    let [i, j] = [0, 0];
    while (i < ones.length || j < others.length) {
        const like = i < ones.length && j < others.length ? likeness(ones[i], others[j]) : 0, here = best[i * width + j];
        if (like > 0 && here === like + best[(i + 1) * width + j + 1])
            rows.push([ones[i++], others[j++]]);
        else if (i < ones.length && (j === others.length || here === best[(i + 1) * width + j]))
            rows.push([ones[i++], null]);
        else
            rows.push([null, others[j++]]);
    }
    return rows;
}

// The same for long sets: partners are those of the same identity at the same place among them.
function alignedQuickly(ones, others) {
    const left = new Map();
    for (const other of others)
        left.set(other.identity, [...(left.get(other.identity) ?? []), other]);
    const rows = ones.map((one) => [one, left.get(one.identity)?.shift() ?? null]);
    return [...rows, ...[...left.values()].flat().map((other) => [null, other])];
}

function align(ones, others) {
    let [first, last] = [0, 0];
    const shorter = Math.min(ones.length, others.length);
    while (first < shorter && ones[first].key === others[first].key)
        first++;
    while (last < shorter - first && ones.at(-1 - last).key === others.at(-1 - last).key)
        last++;
    const pairs = (from, count) => Array.from({ length: count }, (_, at) => [ones[from + at], others[from + others.length - ones.length + at]]);
    const [middle, other] = [ones.slice(first, ones.length - last), others.slice(first, others.length - last)];
    const between = (middle.length + 1) * (other.length + 1) <= MOST_CELLS ? aligned(middle, other) : alignedQuickly(middle, other);
    return [...Array.from({ length: first }, (_, at) => [ones[at], others[at]]), ...between, ...pairs(ones.length - last, last)];
}

// The fields of two descriptors that are not the same.
function differingFields(one, other) {
    const [ours, theirs] = [one, other].map((row) => new Map((row?.node.fields() ?? []).map((field) => [field.name, field])));
    const words = (field) => (field ? [field.figures, field.words].filter(Boolean).join(" ") : "");
    return [...new Set([...ours.keys(), ...theirs.keys()])]
        .map((name) => ({ name, one: words(ours.get(name)), other: words(theirs.get(name)), place: ours.get(name)?.start }))
        .filter((field) => field.one !== field.other);
}

// What two sets have in common and what not: rows of { title, alike }, { title, fields } or { title, only: 0 or 1 }.
export function differences(one, other, kind, otherKind = kind) {
    if (alike(one, other))
        return { same: true, rows: [] };
    const rows = align(rowsOf(one, kind), rowsOf(other, otherKind)).map(([ours, theirs]) => {
        const title = (ours ?? theirs).node.title, row = { title, kind: (ours ?? theirs).node.kind, place: ours?.node.start };
        if (ours && theirs)
            return ours.key === theirs.key ? { ...row, alike: true } : { ...row, fields: differingFields(ours, theirs) };
        return { ...row, only: ours ? 0 : 1 };
    });
    return { same: false, rows };
}

// The first byte in which two blocks differ.
export function firstDifference(one, other) {
    const at = one.findIndex((byte, place) => byte !== other[place]);
    return at < 0 ? one.length : at;
}
