// What the bytes of a descriptor say, for show alone.
import { FACTS } from "./facts.js";
import { hexadecimal, letters, spaced, word } from "./bytes.js";

export const TYPE = {
    DEVICE: 1, CONFIGURATION: 2, STRING: 3, INTERFACE: 4, ENDPOINT: 5, DEVICE_QUALIFIER: 6, OTHER_SPEED: 7, ASSOCIATION: 11, BOS: 15, COMPANION: 48,
};
export const TRANSFER_TYPES = ["control", "isochronous", "bulk", "interrupt"];

// Descriptors beyond those of the text form: the fields behind bLength and bDescriptorType, with their sizes.
export const OTHER_FIELDS = {
    [TYPE.DEVICE_QUALIFIER]: [
        ["bcdUSB", 2], ["bDeviceClass", 1], ["bDeviceSubClass", 1], ["bDeviceProtocol", 1], ["bMaxPacketSize0", 1], ["bNumConfigurations", 1], ["bReserved", 1],
    ],
    [TYPE.ASSOCIATION]: [
        ["bFirstInterface", 1], ["bInterfaceCount", 1], ["bFunctionClass", 1], ["bFunctionSubClass", 1], ["bFunctionProtocol", 1], ["iFunction", 1],
    ],
    [TYPE.BOS]: [["wTotalLength", 2], ["bNumDeviceCaps", 1]],
    [TYPE.COMPANION]: [["bMaxBurst", 1], ["bmAttributes", 1], ["wBytesPerInterval", 2]],
};

const OTHER_NAMES = {
    [TYPE.ASSOCIATION]: "association", [TYPE.BOS]: "BOS", [TYPE.COMPANION]: "companion", 16: "device capability",
    33: "class descriptor 21", 36: "class descriptor 24", 37: "class descriptor 25",
};

const CLASSES = {
    0x01: "audio", 0x02: "communications", 0x03: "human interface", 0x05: "physical", 0x06: "image", 0x07: "printer", 0x08: "mass storage",
    0x09: "hub", 0x0A: "communications data", 0x0B: "smart card", 0x0D: "content security", 0x0E: "video", 0x0F: "personal healthcare", 0x10: "audio and video",
    0xDC: "diagnostic", 0xE0: "wireless controller", 0xEF: "miscellaneous", 0xFE: "application specific", 0xFF: "vendor specific",
};

export const typeName = (type) => FACTS.descriptors[type] || OTHER_NAMES[type] || `descriptor of type ${hexadecimal(type)}`;

export const className = (code) => CLASSES[code] ?? `class ${hexadecimal(code)}`;

// The fields behind bLength and bDescriptorType, as [name, size].
function fieldsOfType(type) {
    const listed = Object.values(FACTS.fields).find(([kind]) => kind === (type === TYPE.OTHER_SPEED ? TYPE.CONFIGURATION : type));
    return listed ? listed[1].map(([name, size]) => [name, size]) : OTHER_FIELDS[type] ?? [];
}

const bcd = (value) => `${hexadecimal(value >> 8, 1)}.${hexadecimal(value & 255)}`;

const powered = (value) => [value & 0x40 ? "own supply" : "bus-powered", value & 0x20 ? "remote wakeup" : "no remote wakeup"].join(", ");

function attributesWords(value, type) {
    if (type !== TYPE.ENDPOINT)
        return type === TYPE.CONFIGURATION || type === TYPE.OTHER_SPEED ? powered(value) : "";
    return TRANSFER_TYPES[value & 3] + ((value & 3) === 1 ? `, ${["no synchronization", "asynchronous", "adaptive", "synchronous"][(value >> 2) & 3]}` : "");
}

const endpointName = (address) => `${address & 15} ${address & 0x80 ? "IN" : "OUT"}`;

// What a field's value means, where the name and the number do not say it.
const MEANINGS = {
    bDescriptorType: (value) => typeName(value),
    bcdUSB: (value) => `USB ${bcd(value)}`,
    bcdDevice: (value) => `release ${bcd(value)}`,
    bDeviceClass: (value) => (value === 0 ? "told by each interface" : className(value)),
    bInterfaceClass: (value) => className(value),
    bFunctionClass: (value) => className(value),
    bEndpointAddress: (value) => `endpoint ${endpointName(value)}`,
    bmAttributes: attributesWords,
    bMaxPower: (value, _, kind) => `${(kind === "super" ? 8 : 2) * value} mA`,
    bMaxPacketSize0: (value, _, kind) => (kind === "super" && value < 16 ? `${2 ** value} bytes` : ""),
    wTotalLength: (value) => `${value} bytes`,
};

// Whether a field's value is read better in hexadecimal.
const inHexadecimal = (name) => new RegExp(`^(?:${FACTS.inHexadecimal})`).test(name) || name === "bDescriptorType";

// A field at `start`: its name, its bytes, its value in figures and what that means; `string` tells the text of a reference.
function field(bytes, start, name, size, { type, kind, string }) {
    const value = size === 1 ? bytes[start] : word(bytes, start);
    const refers = /^i[A-Z]/.test(name) ? (value === 0 ? "no string" : name === "iSerialNumber" ? "the serial block" : string(value)) : undefined;
    const figures = inHexadecimal(name) ? `0x${hexadecimal(value, 2 * size)}` : `${value}`;
    return { name, start, length: size, figures, words: refers ?? MEANINGS[name]?.(value, type, kind) ?? "" };
}

// The fields of the descriptor in bytes[start..end), as far as they are there; what is left over is the last.
export function descriptorFields(bytes, start, end, about) {
    const type = bytes[start + 1], fields = [];
    let at = start;
    for (const [name, size] of [["bLength", 1], ["bDescriptorType", 1], ...fieldsOfType(type)]) {
        if (at + size > end)
            break;
        fields.push(field(bytes, at, name, size, { ...about, type }));
        at += size;
    }
    if (at < end)
        fields.push({ name: fieldsOfType(type).length > 0 ? "more bytes" : "bytes", start: at, length: end - at, figures: spaced(bytes.slice(at, end)), words: "" });
    return fields;
}

// What a descriptor is, in a few words; `bytes` is all of it that is there.
export function descriptorWords(bytes) {
    const type = bytes.length < 2 ? 0 : bytes[1];
    if (type === TYPE.INTERFACE && bytes.length >= 6)
        return `interface ${bytes[2]}, alternate ${bytes[3]}: ${className(bytes[5])}`;
    if (type === TYPE.ENDPOINT && bytes.length >= 6)
        return `endpoint ${endpointName(bytes[2])}: ${TRANSFER_TYPES[bytes[3] & 3]}, ${word(bytes, 4)} bytes`;
    return typeName(type);
}

// The text of a string descriptor, in quotation marks.
export const stringWords = (bytes) => JSON.stringify(letters(bytes));

export const languageWords = (bytes) => Array.from({ length: Math.max(0, bytes.length - 2) >> 1 }, (_, at) => hexadecimal(word(bytes, 2 + 2 * at), 4)).join(", ");

// Where each descriptor of bytes[start..end) begins and ends, by bLength; what does not lead on is the last.
export function* cut(bytes, start, end) {
    for (let at = start, next; at < end; at = next) {
        next = bytes[at] < 2 || bytes[at] > end - at ? end : at + bytes[at];
        yield [at, next];
    }
}
