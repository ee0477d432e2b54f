// A set taken apart for show: entries, and the tree of what stands in it, each node with its bytes. Whether a set is good the library says.
import { TYPE, className, cut, descriptorFields, descriptorWords, languageWords, stringWords, typeName } from "./descriptors.js";
import { hexadecimal, spaced, word } from "./bytes.js";

const ENTRY_NAMES = {
    [TYPE.DEVICE]: "device", [TYPE.CONFIGURATION]: "configuration", [TYPE.STRING]: "string",
    [TYPE.DEVICE_QUALIFIER]: "device_qualifier", [TYPE.OTHER_SPEED]: "other_speed_configuration", [TYPE.BOS]: "BOS",
};

// The entries that have room in the set; `start` is the entry's own first byte, `offset` its body's.
export function entriesOf(set) {
    const entries = [], count = set.length > 2 ? set[2] : 0;
    for (let start = 4; entries.length < count && start + 8 <= set.length; start += 8)
        entries.push({ start, type: set[start], index: set[start + 1], language: word(set, start + 2), offset: word(set, start + 4), length: word(set, start + 6) });
    return entries;
}

export const bodyOf = (set, entry) => set.slice(entry.offset, entry.offset + entry.length);

function entryWords({ type, index, language }) {
    const name = ENTRY_NAMES[type] ?? `type ${type}`;
    if (type === TYPE.STRING)
        return index === 0 && language === 0 ? "string 0: the languages" : `string ${index}, language ${hexadecimal(language, 4)}`;
    return type === TYPE.CONFIGURATION || type === TYPE.OTHER_SPEED ? `${name}, index ${index}` : name;
}

// The text of string `index` in the first language that has it.
function stringText(set, entries, index) {
    const found = entries.find((entry) => entry.type === TYPE.STRING && entry.index === index && entry.language !== 0);
    return found ? stringWords(bodyOf(set, found)) : `string ${index}`;
}

// ---- the tree: a node has its block, its bytes from start to end, a title, a kind, and nodes below
function node(kind, title, start, end, more = {}) {
    return { kind, title, start, end, children: [], block: "set", ...more };
}

function frameNode(set) {
    const fields = [["total length", 0, 2], ["number of entries", 2, 1], ["zero", 3, 1]].filter(([, start, length]) => start + length <= set.length);
    return node("frame", "frame", 0, Math.min(4, set.length), {
        fields: () => fields.map(([name, start, length]) => ({ name, start, length, figures: `${length === 2 ? word(set, start) : set[start]}`, words: "" })),
    });
}

function entryNode(set, entry, at) {
    const type = ENTRY_NAMES[entry.type] ?? "";
    const shown = [["type", 0, 1, type], ["index", 1, 1, ""], ["language", 2, 2, ""], ["offset", 4, 2, "where its body begins"], ["length", 6, 2, "of its body"]];
    return node("entry", `entry ${at + 1}: ${entryWords(entry)}`, entry.start, entry.start + 8, {
        fields: () => shown.map(([name, offset, length, words]) => {
            const value = length === 1 ? set[entry.start + offset] : word(set, entry.start + offset);
            return { name, start: entry.start + offset, length, figures: name === "language" ? `0x${hexadecimal(value, 4)}` : `${value}`, words };
        }),
    });
}

// What a tree is of: the set, its entries and its kind.
class Taken {
    constructor(set, kind) {
        this.set = set;
        this.kind = kind;
        this.entries = entriesOf(set);
        this.remarks = [];
    }

    descriptor(kind, title, start, end) {
        const about = { kind: this.kind, string: (index) => stringText(this.set, this.entries, index) };
        return node(kind, title, start, end, { fields: () => descriptorFields(this.set, start, end, about) });
    }

    // One descriptor of a configuration's body.
    part(start, end) {
        const type = this.set[start + 1], bytes = this.set.subarray(start, end);
        if (end - start < 2 || this.set[start] !== end - start)
            return this.stray(start, end);
        if (type === TYPE.ENDPOINT && bytes.length >= 7)
            return this.descriptor("endpoint", descriptorWords(bytes), start, end);
        return this.descriptor("class", typeName(type), start, end);
    }

    stray(start, end) {
        const words = `this page cannot cut the body any further at byte ${start}: bLength is ${this.set[start]}, and ${end - start} bytes are left`;
        this.remarks.push({ place: start, words });
        return this.descriptor("stray", `${end - start} bytes that cannot be cut`, start, end);
    }

    // A setting, below its interface.
    hangSetting(top, start, end) {
        const bytes = this.set.subarray(start, end), endpoints = bytes[4] === 1 ? "1 endpoint" : `${bytes[4]} endpoints`;
        const setting = this.descriptor("interface", `setting ${bytes[3]}: ${className(bytes[5])}, ${endpoints}`, start, end);
        if (top.interface?.number !== bytes[2]) {
            top.interface = node("interface", `interface ${bytes[2]}`, start, end, { number: bytes[2], fields: setting.fields });
            top.body.children.push(top.interface);
        }
        top.interface.children.push(setting);
        top.setting = setting;
    }

    // Hangs a descriptor where it belongs: below the setting before it, or beside the interfaces.
    hang(top, start, end) {
        const whole = this.set[start] === end - start, type = this.set[start + 1];
        if (whole && type === TYPE.INTERFACE && end - start >= 9) {
            this.hangSetting(top, start, end);
        } else if (top.setting === null || (whole && type === TYPE.ASSOCIATION)) {
            top.body.children.push(this.part(start, end));
            return;
        } else {
            top.setting.children.push(this.part(start, end));
        }
        top.setting.reach = top.interface.reach = end;
    }

    configuration(entry, end) {
        const [start, set] = [entry.offset, this.set], name = ENTRY_NAMES[entry.type];
        const value = end - start > 5 ? ` ${set[start + 5]}` : "";
        const body = node("configuration", `${name}${value} (index ${entry.index})`, start, end);
        const top = { body, setting: null, interface: null };
        let first = true;
        for (const [from, to] of cut(set, start, end)) {
            if (first && to - from >= 9 && set[from] === to - from)
                body.children.push(this.descriptor("configuration", `${name} descriptor`, from, to));
            else
                this.hang(top, from, to);
            first = false;
        }
        return body;
    }

    body(entry) {
        const end = Math.min(entry.offset + entry.length, this.set.length), bytes = this.set.subarray(entry.offset, end);
        if (entry.offset + entry.length > end)
            this.remarks.push({ place: entry.start + 4, words: `the ${entryWords(entry)} is said to end at byte ${entry.offset + entry.length}, beyond the set's end` });
        if (entry.type === TYPE.CONFIGURATION || entry.type === TYPE.OTHER_SPEED)
            return this.configuration(entry, end);
        if (entry.type === TYPE.STRING) {
            const words = entry.index === 0 && entry.language === 0 ? `languages ${languageWords(bytes)}` : `${entryWords(entry)}: ${stringWords(bytes)}`;
            return node("string", words, entry.offset, end, { fields: () => stringFields(this.set, entry.offset, end, entry.index === 0) });
        }
        return this.descriptor(entry.type === TYPE.DEVICE ? "device" : "other", entryWords(entry), entry.offset, end);
    }
}

function stringFields(bytes, start, end, lists) {
    const fields = [], body = bytes.slice(start, end);
    if (end - start > 0)
        fields.push({ name: "bLength", start, length: 1, figures: `${bytes[start]}`, words: "" });
    if (end - start > 1)
        fields.push({ name: "bDescriptorType", start: start + 1, length: 1, figures: `0x${hexadecimal(bytes[start + 1])}`, words: typeName(bytes[start + 1]) });
    const [name, words] = lists ? ["languages", languageWords(body)] : ["text", stringWords(body)];
    if (end - start > 2)
        fields.push({ name, start: start + 2, length: end - start - 2, figures: spaced(body.slice(2)), words });
    return fields;
}

// The nodes of a set, in the set's order, and what this page could not read of it.
export function treeOf(set, kind = "one") {
    const taken = new Taken(set, kind), nodes = [frameNode(set)];
    const contents = node("entry", `contents: ${taken.entries.length === 1 ? "1 entry" : `${taken.entries.length} entries`}`, 4, 4 + 8 * taken.entries.length);
    contents.children = taken.entries.map((entry, at) => entryNode(set, entry, at));
    nodes.push(contents);
    const strings = node("string", "strings", 0, 0);
    for (const entry of taken.entries)
        (entry.type === TYPE.STRING ? strings.children : nodes).push(taken.body(entry));
    if (strings.children.length > 0)
        nodes.push({ ...strings, start: strings.children[0].start, end: strings.children.at(-1).end });
    return { nodes: nodes.filter((one) => one.end > one.start), remarks: taken.remarks };
}

export function serialNode(serial) {
    const fields = () => stringFields(serial, 0, serial.length, false);
    return node("string", `serial block: ${stringWords(serial)}`, 0, serial.length, { block: "serial", fields });
}

// What stands in a tree one by one, in the order of the bytes: the nodes with fields, a setting before what is below it.
export function* leavesOf(nodes) {
    for (const one of nodes) {
        if (one.fields && one.number === undefined)
            yield one;
        yield* leavesOf(one.children);
    }
}

// The chain of nodes that hold this byte, outermost first.
export function nodesAt(nodes, place) {
    for (const one of nodes) {
        const end = Math.max(one.end, one.reach ?? 0);
        if (place >= one.start && place < end)
            return [one, ...nodesAt(one.children, place)];
    }
    return [];
}

// Where a byte stands, in words.
export function placeWords(nodes, place) {
    return nodesAt(nodes, place).filter((one) => one.kind !== "entry" || one.children.length === 0).map((one) => one.title).join(" › ");
}

// ---- counts and the lister's lines
function* configurationDescriptors(set) {
    for (const entry of entriesOf(set))
        if (entry.type === TYPE.CONFIGURATION)
            for (const [start, end] of cut(set, entry.offset, Math.min(entry.offset + entry.length, set.length)))
                yield set.subarray(start, end);
}

export function shapeOf(set) {
    const descriptors = [...configurationDescriptors(set)], settings = descriptors.filter((one) => one[1] === TYPE.INTERFACE);
    const entries = entriesOf(set);
    return [
        [entries.filter((entry) => entry.type === TYPE.CONFIGURATION).length, "configuration"],
        [settings.filter((setting) => setting[3] === 0).length, "interface"],
        [settings.length, "setting"],
        [descriptors.filter((one) => one[1] === TYPE.ENDPOINT).length, "endpoint"],
        [entries.filter((entry) => entry.type === TYPE.STRING && entry.index > 0).length, "string"],
    ].filter(([count]) => count > 0);
}

// What the lister writes of a set that the library answers with this number.
export function listing(set, number) {
    if (number !== 0)
        return [`REFUSED ${number}`];
    const lines = [`ACCEPTED ${entriesOf(set).filter((entry) => entry.type === TYPE.CONFIGURATION).length}`];
    for (const one of configurationDescriptors(set)) {
        if (one[1] === TYPE.CONFIGURATION)
            lines.push(`C ${one[5]} ${one[4]}`);
        else if (one[1] === TYPE.INTERFACE)
            lines.push(`I ${one[2]} ${one[3]} ${one[4]}`);
        else if (one[1] === TYPE.ENDPOINT)
            lines.push(`E ${one[2]} ${one[3] & 3} ${word(one, 4)}`);
    }
    return lines;
}

// bMaxPacketSize0 of the device descriptor.
export function packetSize(set) {
    const device = entriesOf(set).find((entry) => entry.type === TYPE.DEVICE);
    return device ? set[device.offset + 7] : 0;
}
