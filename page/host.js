// A host that enumerates a board, step by step: what tools/host/host.c asks of the library, without the device loop around it.
import { FACTS } from "./facts.js";
import { EVENT } from "./library.js";
import { TYPE, TRANSFER_TYPES, cut, languageWords } from "./descriptors.js";
import { eventWords, setupInBrackets } from "./requests.js";
import { movesEndpoints, recordWords } from "./record.js";
import { alike, hexadecimal, joined, letters, littleEndian, spaced, word } from "./bytes.js";

const ADDRESS = 5;
const NO_SETUP = new Uint8Array(0);
const REQUEST = Object.fromEntries(Object.entries(FACTS.requests).map(([name, [, code]]) => [name, code]));
const WAKEUP = 1, HALT = 0;

// The header's words of a number, without whose it is.
export const numberWords = (number) => FACTS.numbers[number]?.remark.replace(/^[\w ]+: /, "") ?? "no number of the library";

const setupOf = (type, code, value, index, length) => joined([Uint8Array.of(type, code), littleEndian(value, 2), littleEndian(index, 2), littleEndian(length, 2)]);

const descriptorsIn = (body) => Array.from(cut(body, 0, body.length), ([start, end]) => body.subarray(start, end));

// What the host has learnt of the device.
class Learnt {
    bodies = [];
    references = new Set();
    languages = [];

    readConfiguration(body) {
        this.bodies.push(body);
        this.references.add(body[6]);
        for (const one of descriptorsIn(body))
            if (one[1] === TYPE.INTERFACE)
                this.references.add(one[8]);
    }

    attribute(bit) {
        return this.bodies.some((body) => (body[7] >> bit) & 1);
    }

    // A value that no configuration has, and a language that is not listed.
    missingValue() {
        const values = this.bodies.map((body) => body[5]);
        return Array.from({ length: 9 }, (_, at) => at + 1).find((value) => !values.includes(value));
    }

    unlistedLanguage() {
        let language = 0x0409;
        while (this.languages.includes(language))
            language++;
        return language;
    }
}

// The steps of an enumeration, one at a time: each is { heading } or { event, answer, status, endpoints }.
export class Host {
    constructor(board, speed = 0) {
        this.board = board;
        this.speed = speed;
        this.learnt = new Learnt();
        this.open = [];
        this.last = null; // the answer to the last event
    }

    // The endpoints that are open now, if they are others than before.
    movedEndpoints(event) {
        if (!movesEndpoints(event))
            return null;
        const before = this.open;
        this.open = this.board.endpoints();
        return before.length === this.open.length && before.every(({ place }, at) => place === this.open[at].place) ? null : this.open;
    }

    *happen(event, value = 0, setup = NO_SETUP) {
        const happening = { event, value, setup }, answer = this.board.happen(happening), endpoints = this.movedEndpoints(happening);
        const status = event === EVENT.SETUP && answer.number === 0 ? this.board.happen({ event: EVENT.STATUS_END }) : null;
        this.last = answer;
        yield { event: happening, answer, endpoints, status };
    }

    *ask(type, code, value, index, length) {
        yield* this.happen(EVENT.SETUP, 0, setupOf(type, code, value, index, length));
    }

    *getDescriptor(type, index, language, length) {
        yield* this.ask(0x80, REQUEST.GET_DESCRIPTOR, 256 * type + index, language, length);
    }

    *reset() {
        yield* this.happen(EVENT.BUS_RESET, this.speed);
    }

    *enumerate() {
        yield { heading: "The bus is reset; 8 bytes of the device descriptor tell bMaxPacketSize0" };
        yield* this.reset();
        yield* this.getDescriptor(TYPE.DEVICE, 0, 0, 8);
        yield* this.reset();
        yield* this.getDescriptor(TYPE.DEVICE, 0, 0, 64);
        yield { heading: "The address, taken when the status stage has ended" };
        yield* this.ask(0x00, REQUEST.SET_ADDRESS, ADDRESS, 0, 0);
        yield* this.getDescriptor(TYPE.DEVICE, 0, 0, 18);
        const device = this.last.data;
        for (const at of [14, 15, 16])
            this.learnt.references.add(device[at]);
        yield* this.readQualifier(device[17]);
        yield* this.readConfigurations(device[17]);
        yield* this.readStrings();
        yield* this.useWakeup();
        yield* this.useSleep();
        yield* this.usePower();
        for (const body of this.learnt.bodies)
            yield* this.useConfiguration(body);
    }

    *readQualifier() {
        const isPair = this.board.sets.length === 2;
        yield { heading: isPair ? "The other speed: device_qualifier and other_speed_configuration" : "Only full speed: there is no device_qualifier" };
        yield* this.getDescriptor(TYPE.DEVICE_QUALIFIER, 0, 0, 10);
        const others = isPair && this.last.number === 0 ? this.last.data[8] : 0;
        for (let index = 0; index < others; index++) {
            yield* this.getDescriptor(TYPE.OTHER_SPEED, index, 0, 9);
            yield* this.getDescriptor(TYPE.OTHER_SPEED, index, 0, word(this.last.data, 2));
        }
    }

    *readConfigurations(count) {
        yield { heading: "Configurations: 9 bytes tell wTotalLength; asked for more, a device gives what there is" };
        for (let index = 0; index < count; index++) {
            yield* this.getDescriptor(TYPE.CONFIGURATION, index, 0, 9);
            yield* this.getDescriptor(TYPE.CONFIGURATION, index, 0, word(this.last.data, 2));
            this.learnt.readConfiguration(this.last.data);
        }
        yield* this.getDescriptor(TYPE.CONFIGURATION, 0, 0, 512);
        yield* this.getDescriptor(TYPE.CONFIGURATION, count, 0, 9);
    }

    *readStrings() {
        yield { heading: "Strings: string 0 lists the languages, then each string in each of them" };
        yield* this.getDescriptor(TYPE.STRING, 0, 0, 255);
        for (let at = 2; at + 1 < this.last.data.length; at += 2)
            this.learnt.languages.push(word(this.last.data, at));
        for (const index of [...this.learnt.references].filter((one) => one > 0).sort((one, other) => one - other))
            for (const language of [...this.learnt.languages, this.learnt.unlistedLanguage()])
                yield* this.getDescriptor(TYPE.STRING, index, language, 255);
    }

    *changeWakeup(code) {
        yield* this.ask(0x00, code, WAKEUP, 0, 0);
    }

    *useWakeup() {
        yield { heading: this.learnt.attribute(5) ? "Remote wakeup, on and off" : "No configuration has remote wakeup" };
        yield* this.changeWakeup(REQUEST.SET_FEATURE);
        yield* this.ask(0x80, REQUEST.GET_STATUS, 0, 0, 2);
        yield* this.changeWakeup(REQUEST.CLEAR_FEATURE);
    }

    *useSleep() {
        yield { heading: "The device sleeps: it may wake the host only where the host allows it" };
        yield* this.happen(EVENT.WAKE);
        yield* this.happen(EVENT.SUSPEND);
        yield* this.happen(EVENT.WAKE);
        yield* this.happen(EVENT.RESUME);
        yield* this.changeWakeup(REQUEST.SET_FEATURE);
        yield* this.happen(EVENT.SUSPEND);
        yield* this.happen(EVENT.WAKE);
        yield* this.happen(EVENT.RESUME);
        yield* this.changeWakeup(REQUEST.CLEAR_FEATURE);
        yield* this.happen(EVENT.SUSPEND);
        yield* this.getDescriptor(TYPE.DEVICE, 0, 0, 18);
    }

    *usePower() {
        if (!this.learnt.attribute(6))
            return;
        yield { heading: "The supply changes: D0 of the device's status tells it" };
        for (const source of [1, 0, 1]) {
            yield* this.happen(EVENT.POWER, source);
            yield* this.ask(0x80, REQUEST.GET_STATUS, 0, 0, 2);
        }
    }

    *useConfiguration(body) {
        yield { heading: "A configuration is selected by its value" };
        yield* this.ask(0x00, REQUEST.SET_CONFIGURATION, this.learnt.missingValue(), 0, 0);
        yield* this.ask(0x00, REQUEST.SET_CONFIGURATION, body[5], 0, 0);
        yield* this.ask(0x80, REQUEST.GET_CONFIGURATION, 0, 0, 1);
        yield* this.ask(0x80, REQUEST.GET_STATUS, 0, 0, 2);
        for (const one of descriptorsIn(body)) {
            if (one[1] === TYPE.INTERFACE)
                yield* this.takeSetting(one[2], one[3]);
            if (one[1] === TYPE.ENDPOINT)
                yield* (one[3] & 3) === 1 ? this.useIsochronous(one[2]) : this.useHalt(one[2]);
        }
        yield { heading: "The same settings again: halts and toggles become 0" };
        for (let number = 0; number < body[4]; number++)
            yield* this.ask(0x01, REQUEST.SET_INTERFACE, this.board.record[8 + number], number, 0);
        yield* this.ask(0x81, REQUEST.GET_INTERFACE, 0, body[4], 1);
    }

    *takeSetting(number, alternate) {
        yield { heading: `Interface ${number} takes alternate ${alternate}, and its endpoints are used` };
        yield* this.ask(0x01, REQUEST.SET_INTERFACE, alternate, number, 0);
        yield* this.ask(0x81, REQUEST.GET_INTERFACE, 0, number, 1);
        yield* this.ask(0x81, REQUEST.GET_STATUS, 0, number, 2);
    }

    *useIsochronous(endpoint) {
        yield* this.ask(0x02, REQUEST.SET_FEATURE, HALT, endpoint, 0);
        yield* this.ask(0x82, REQUEST.GET_STATUS, 0, endpoint, 2);
    }

    *useHalt(endpoint) {
        yield* this.happen(EVENT.PACKET_PASSED, endpoint);
        yield* this.ask(0x02, REQUEST.CLEAR_FEATURE, HALT, endpoint, 0);
        yield* this.happen(EVENT.PACKET_PASSED, endpoint);
        yield* this.ask(0x02, REQUEST.SET_FEATURE, HALT, endpoint, 0);
        yield* this.ask(0x82, REQUEST.GET_STATUS, 0, endpoint, 2);
        yield* this.ask(0x02, REQUEST.CLEAR_FEATURE, HALT, endpoint, 0);
        yield* this.happen(EVENT.PACKET_PASSED, endpoint);
        yield* this.happen(EVENT.HALT, endpoint);
    }
}

// ---- in words, as tools/host/host.c prints them
function packetsWords({ data, packets }) {
    const bytes = `${data.length} byte${data.length === 1 ? "" : "s"} in`;
    if (packets.length === 1)
        return `${bytes} one packet`;
    const before = packets.length > 8 ? [`${packets[0]} (${packets.length - 1} times)`] : packets.slice(0, -1);
    return `${bytes} packets of ${[...before, packets.at(-1)].join(", ")}`;
}

export function answerWords({ event }, answer) {
    if (answer.number !== 0)
        return `${answer.number >= 10 && answer.number <= 14 ? "STALL, " : ""}${answer.number}: ${numberWords(answer.number)}`;
    if (event === EVENT.WAKE)
        return "the device may wake the host, and signals";
    return answer.packets.length > 0 ? packetsWords(answer) : "done";
}

const openWords = ({ data }) => `${hexadecimal(data[2])} ${TRANSFER_TYPES[data[3] & 3]} of ${word(data, 4)}`;

export const endpointsWords = (endpoints) => endpoints.map(openWords).join(", ") || "none";

// What the data of an answer says, a line for each descriptor: its bytes and its words.
export function dataLines({ setup }, answer) {
    if (answer.packets.length === 0 || setup[1] !== REQUEST.GET_DESCRIPTOR)
        return answer.data.length > 0 ? [{ bytes: answer.data, words: "" }] : [];
    if (setup[3] === TYPE.STRING)
        return [{ bytes: answer.data, words: setup[2] === 0 ? `languages ${languageWords(answer.data)}` : `"${letters(answer.data)}"` }];
    return descriptorsIn(answer.data).map((bytes) => ({ bytes, words: shortWords(bytes) }));
}

function shortWords(bytes) {
    const type = bytes.length < 2 ? 0 : bytes[1], name = FACTS.descriptors[type] && type < 8 ? FACTS.descriptors[type] : `type ${hexadecimal(type)}`;
    if ((type === TYPE.CONFIGURATION || type === TYPE.OTHER_SPEED) && bytes.length >= 6)
        return `${name} ${bytes[5]}`;
    if (type === TYPE.INTERFACE && bytes.length >= 4)
        return `${name} ${bytes[2]}, alternate ${bytes[3]}`;
    if (type === TYPE.ENDPOINT && bytes.length >= 6)
        return `${name} ${hexadecimal(bytes[2])}, ${TRANSFER_TYPES[bytes[3] & 3]}, ${word(bytes, 4)} bytes`;
    return name;
}

// An event and its answer, in a line or two.
function answerLines(event, answer) {
    const words = eventWords(event) + setupInBrackets(event), says = answerWords(event, answer);
    if (event.event === EVENT.WAKE)
        return [`${words}: ${says}`];
    if (event.event !== EVENT.SETUP && answer.number === 0)
        return [words];
    if (event.setup[1] === REQUEST.GET_DESCRIPTOR || answer.packets.length === 0)
        return [words, `  -> ${says}`, ...dataLines(event, answer).map(({ bytes, words: meaning }) => `     ${spaced(bytes)}  ${meaning}`)];
    return [words, `  -> ${says}: ${spaced(answer.data)}`];
}

// The lines of a step.
export function stepLines({ heading, event, answer, status, endpoints }) {
    if (heading)
        return ["", `# ${heading}`];
    const lines = answerLines(event, answer);
    if (endpoints)
        lines.push(`  open: ${endpointsWords(endpoints)}`);
    if (!alike(answer.before, answer.record))
        lines.push(`  record: ${recordWords(answer.record)}`);
    if (status && !alike(status.before, status.record))
        lines.push(`  record after the status stage: ${recordWords(status.record)}`);
    return lines;
}
