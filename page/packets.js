// Control transfers packet by packet, as the bench's scripts play them (bench/packets.py): the words, the peripheral as the pipe's orders leave it, and what
// comes of each step.
import { FACTS } from "./facts.js";
import { EVENT, PIPE } from "./library.js";
import { Unread, Words, readEvent } from "./requests.js";
import { alike, countWords, readHexadecimal, word } from "./bytes.js";

const PIPE_LENGTH = 16, NO_BYTES = new Uint8Array(0);
const ORDER = { NOTHING: 0, SEND: 1, AWAIT: 2, RECEIVE: 3, STALL: 4, ASK: 5 }, STAGE = { DATA_IN: 2, DATA_OUT: 4 };

const nameOf = (text) => text.split(" ")[0], isOwnWord = (name) => Object.hasOwn(FACTS.packets.words, name);

export const isPacketWord = (line) => isOwnWord(nameOf(line.trim()));

// What is told with a word of the pipe's own: nothing, a number or bytes.
function readOwn(name, rest) {
    const [takes, event] = FACTS.packets.words[name], call = { word: name, event, value: 0, setup: NO_BYTES, reply: null };
    if (takes === "bytes") {
        const reply = readHexadecimal(rest);
        if (reply === null)
            throw new Unread(`${rest} is not hexadecimal`);
        return { ...call, reply };
    }
    const words = new Words(rest), value = takes === "number" ? words.number("a number of bytes", 2) : 0;
    words.end();
    return { ...call, value };
}

// What a line tells the pipe; null where it is another event's.
export function readCall(line) {
    const text = line.trim().replace(/\s+/g, " "), name = nameOf(text);
    if (isOwnWord(name))
        return readOwn(name, text.slice(name.length).trim());
    const { event, value, setup } = readEvent(text);
    if (event === EVENT.STATUS_END)
        throw new Unread("packet by packet the pipe itself tells a status end");
    const told = { [EVENT.SETUP]: PIPE.SETUP, [EVENT.BUS_RESET]: PIPE.RESET }[event];
    return told === undefined ? null : { word: "", event: told, value, setup, reply: null };
}

// The pipe record that a line `pipe` lends: idle, or of these bytes.
export function readPipe(line) {
    const rest = line.trim().slice("pipe".length), pipe = readHexadecimal(rest);
    if (pipe === null)
        throw new Unread(`${rest.trim()} is not hexadecimal`);
    return rest.trim() === "" ? new Uint8Array(PIPE_LENGTH) : pipe;
}

const stageWords = (pipe) => (pipe.length === PIPE_LENGTH && FACTS.packets.stages[pipe[0]]) || "no stage";

// The pipe record as a person reads it.
export function pipeWords(pipe) {
    if (pipe.length !== PIPE_LENGTH)
        return "no transfer";
    const [place, length, asked, moved] = [2, 4, 6, 8].map((at) => word(pipe, at)), block = FACTS.packets.blocks[pipe[1]] ?? `block ${pipe[1]}`;
    const details = {
        [STAGE.DATA_IN]: `, packet ${moved} of ${countWords(length, "byte")} of ${block} at byte ${place}`,
        [STAGE.DATA_OUT]: `, ${moved} of ${countWords(asked, "byte")}`,
    };
    return stageWords(pipe) + (details[pipe[0]] ?? "");
}

// The order in words, with the packet's length or the room.
export function orderWords({ order, packet, room, place }) {
    const more = order === ORDER.SEND ? ` ${countWords(packet.length, "byte")}${place}` : order === ORDER.RECEIVE ? ` at most ${countWords(room, "byte")}` : "";
    return `${FACTS.packets.orders[order]}${more}`;
}

const atRest = () => ({ stalled: false, packet: null, room: null, awaitsStatus: false });

export class Transfers {
    constructor(board, pipe) {
        Object.assign(this, { board, pipe, reply: NO_BYTES, peripheral: atRest() });
    }

    // What the host's token gets, before the pipe hears of it.
    token(name) {
        const { stalled, packet, room, awaitsStatus } = this.peripheral, ready = name === "in" ? packet !== null : room !== null || awaitsStatus;
        return stalled ? "STALL" : ready ? "ACK" : "NAK";
    }

    pass(name) {
        const taken = name === "in" ? this.peripheral.packet : null;
        Object.assign(this.peripheral, name === "in" ? { packet: null } : { room: null, awaitsStatus: false });
        return taken;
    }

    obey({ order, packet, room, pipe }) {
        if (order === ORDER.SEND)
            Object.assign(this.peripheral, { packet, awaitsStatus: pipe[0] === STAGE.DATA_IN });
        if (order === ORDER.AWAIT)
            this.peripheral.awaitsStatus = true;
        if (order === ORDER.RECEIVE)
            this.peripheral.room = room;
        if (order === ORDER.STALL)
            this.peripheral = { ...atRest(), stalled: true };
    }

    // A step: what the host's token got and the packet that it took, and what the pipe gave; null where it did not hear of it.
    play(call) {
        const isToken = call.word === "in" || call.word === "out", host = isToken ? this.token(call.word) : null;
        if (isToken && host !== "ACK")
            return { host, taken: null, heard: null };
        const taken = isToken ? this.pass(call.word) : null;
        if (call.event === PIPE.SETUP || call.event === PIPE.RESET)
            Object.assign(this, { peripheral: atRest(), reply: NO_BYTES });
        this.reply = call.reply ?? this.reply;
        return { host, taken, heard: this.hear(call) };
    }

    hear(call) {
        const { library, sets, serial, record } = this.board, before = this.pipe;
        const heard = library.pipeEvent(sets, serial, { record, pipe: before, reply: this.reply }, call);
        this.pipe = heard.pipe;
        this.board.record = heard.record;
        this.obey(heard);
        return { ...heard, pipeChanged: !alike(before, heard.pipe), recordChanged: !alike(record, heard.record) };
    }
}
