// Requests and events: read from a line, as the bench's scripts have them (bench/events.py), and told in words, as the bench host tells them.
import { FACTS } from "./facts.js";
import { EVENT } from "./library.js";
import { hexadecimal, joined, littleEndian, readHexadecimal, readNumber, spaced, word } from "./bytes.js";

export class Unread extends Error {}

export class Words {
    constructor(text) {
        this.left = text.split(/\s+/).filter((part) => part !== "");
    }

    next(wanted) {
        if (this.left.length === 0)
            throw new Unread(`here ${wanted} is missing`);
        return this.left.shift();
    }

    number(wanted, size, names = {}) {
        const text = this.next(wanted), value = Object.hasOwn(names, text) ? names[text] : readNumber(text);
        if (value === null)
            throw new Unread(`${text} is no number`);
        if (value >= 256 ** size)
            throw new Unread(`${text} has no room in ${size === 1 ? "1 byte" : `${size} bytes`}`);
        return value;
    }

    hasNumber() {
        return this.left.length > 0 && /^\d/.test(this.left[0]);
    }

    end() {
        if (this.left.length > 0)
            throw new Unread(`${this.left.join(" ")} is too much`);
    }
}

function readRecipient(words, fields) {
    const name = words.next("device, interface or endpoint"), at = FACTS.recipients.indexOf(name);
    if (at < 0)
        throw new Unread(`${name} is none of ${FACTS.recipients.join(", ")}`);
    fields.bmRequestType += at;
    if (at > 0)
        fields.wIndex = words.number(`the ${name}'s number`, 2);
}

// A type by its name or its number, then the index, and for a string the language.
function readDescriptor(words, fields) {
    const name = words.next("a descriptor's type"), type = name === "" ? -1 : FACTS.descriptors.indexOf(name);
    fields.wValue = 256 * (type >= 0 ? type : new Words(name).number("a type", 1)) + (words.hasNumber() ? words.number("an index", 1) : 0);
    if (words.hasNumber())
        fields.wIndex = words.number("a language", 2);
}

const READERS = {
    recipient: readRecipient,
    descriptor: readDescriptor,
    feature: (words, fields) => { fields.wValue = words.number("a feature", 2, FACTS.features); },
    wValue: (words, fields) => { fields.wValue = words.number("wValue", 2); },
    wIndex: (words, fields) => { fields.wIndex = words.number("wIndex", 2); },
};

// The eight bytes of a request: the words behind its name, then any field by its name.
function readRequest(name, rest) {
    const [bmRequestType, bRequest, wLength, places] = FACTS.requests[name], words = new Words(rest);
    const fields = { bmRequestType, bRequest, wValue: 0, wIndex: 0, wLength };
    for (const place of places) {
        if (words.left.length > 0 && Object.hasOwn(FACTS.sizes, words.left[0]))
            break;
        READERS[place](words, fields);
    }
    while (words.left.length > 0) {
        const field = words.next("a field");
        if (!Object.hasOwn(FACTS.sizes, field))
            throw new Unread(`${field} is no field: ${Object.keys(FACTS.sizes).join(", ")}`);
        fields[field] = words.number(`the value of ${field}`, FACTS.sizes[field]);
    }
    return joined(Object.entries(FACTS.sizes).map(([field, size]) => littleEndian(fields[field], size)));
}

// A line that is no name: the bytes of a setup.
function readSetup(text) {
    const setup = readHexadecimal(text);
    if (setup === null)
        throw new Unread(`${text} is no request: neither bytes in hexadecimal nor one of ${Object.keys(FACTS.requests).join(", ")}`);
    return { event: EVENT.SETUP, value: 0, setup };
}

const EVENT_NAMES = Object.keys(FACTS.events).sort((one, other) => other.length - one.length); // "reset to" before "reset"

// The event of a line: its number, its value and its setup bytes.
export function readEvent(line) {
    const text = line.trim().replace(/\s+/g, " "), [name] = text.split(" "), rest = text.slice(name.length);
    const request = Object.keys(FACTS.requests).find((one) => one === name.toUpperCase());
    if (request)
        return { event: EVENT.SETUP, value: 0, setup: readRequest(request, rest) };
    const words = EVENT_NAMES.find((one) => `${text} `.startsWith(`${one} `));
    if (!words)
        return readSetup(name === "setup" ? rest : text);
    const left = new Words(text.slice(words.length)), [event, values] = FACTS.events[words], value = values === null ? 0 : left.number("a number", 1, values);
    left.end();
    return { event, value, setup: new Uint8Array(0) };
}

// ---- in words

function recipientWords(recipient, index) {
    return recipient === 0 ? "device" : recipient === 1 ? `interface ${index}` : `endpoint ${hexadecimal(index)}`;
}

function askedWords(setup) {
    const type = setup[3], name = type > 0 && type < 8 ? FACTS.descriptors[type] : `type ${hexadecimal(type)}`;
    const which = type === 2 ? ` index ${setup[2]}` : type === 3 ? ` ${setup[2]}, language ${hexadecimal(word(setup, 4), 4)}` : "";
    return `${name}${which}, ${word(setup, 6)} bytes asked`;
}

function featureWords(setup) {
    const recipient = setup[0] & 31, selector = word(setup, 2);
    const features = { "0 1": "remote wakeup", "0 2": `test mode ${setup[5]}`, "2 0": "halt" };
    return `${features[`${recipient} ${selector}`] ?? selector}, ${recipientWords(recipient, word(setup, 4))}`;
}

// What stands behind a request's name.
const FIELD_WORDS = {
    GET_STATUS: (setup) => recipientWords(setup[0] & 31, word(setup, 4)),
    CLEAR_FEATURE: featureWords,
    SET_FEATURE: featureWords,
    SET_ADDRESS: (setup) => `${word(setup, 2)}`,
    SET_CONFIGURATION: (setup) => `${word(setup, 2)}`,
    GET_DESCRIPTOR: askedWords,
    GET_INTERFACE: (setup) => recipientWords(1, word(setup, 4)),
    SET_INTERFACE: (setup) => `${recipientWords(1, word(setup, 4))}, alternate ${word(setup, 2)}`,
};

const requestName = (setup) => (setup[0] & 0x60 ? undefined : Object.keys(FACTS.requests).find((name) => FACTS.requests[name][1] === setup[1]));

// A setup in words; its bytes come in brackets behind it.
function setupWords(setup) {
    if (setup.length !== 8)
        return `a setup of ${setup.length} bytes`;
    const name = requestName(setup), whose = setup[0] & 0x40 ? "vendor" : setup[0] & 0x20 ? "class" : "later standard";
    return name ? [name, FIELD_WORDS[name]?.(setup)].filter(Boolean).join(" ") : `request ${hexadecimal(setup[1])} of a ${whose}`;
}

const EVENT_WORDS = {
    [EVENT.STATUS_END]: () => "status end",
    [EVENT.BUS_RESET]: (value) => (value === 0 ? "bus reset" : value === 1 ? "bus reset to high speed" : `bus reset to speed ${value}`),
    [EVENT.HALT]: (value) => `the application halts endpoint ${hexadecimal(value)}`,
    [EVENT.PACKET_PASSED]: (value) => `packet on endpoint ${hexadecimal(value)}`,
    [EVENT.POWER]: (value) => (value === 0 ? "the device draws from the bus" : value === 1 ? "the device draws from its own supply" : `power source ${value}`),
    [EVENT.SUSPEND]: () => "the bus falls silent",
    [EVENT.RESUME]: () => "the host resumes the bus",
    [EVENT.WAKE]: () => "a key is pressed",
};

export const eventWords = ({ event, value, setup }) => (event === EVENT.SETUP ? setupWords(setup) : EVENT_WORDS[event](value));

export const setupInBrackets = ({ event, setup }) => (event === EVENT.SETUP ? ` (${spaced(setup)})` : "");
