// Calls the WebAssembly module as tools/harness.c calls the archive, by the same commands (tests/reference/src/protocol.rs): node wasm.mjs MODULE
//
// What is lent stands in the module's memory past __heap_base, each block between guard bytes; after a call, every byte that it may not write is as it was.
import { readFileSync, readSync, writeSync } from "node:fs";

const NULL_FOR_EMPTY = 1;
const BYTES_CHANGED = 1, PART_ASTRAY = 2, CALL_STOPPED = 4, COMMAND_WRONG = 5;
const GUARD = 32, GUARD_BYTE = 0xc5, UNWRITTEN = 0xa6;
const ROOM = 1 << 20;

const { instance } = await WebAssembly.instantiate(readFileSync(process.argv[2]));
const library = instance.exports;
const start = library.__heap_base.value;
library.memory.grow(Math.ceil(ROOM / 65536));
const memory = new Uint8Array(library.memory.buffer);
const words = new DataView(library.memory.buffer);

let set = new Uint8Array(0), high = new Uint8Array(0), serial = new Uint8Array(0);
let touched = start + ROOM; // up to here, bytes may be other than guard bytes

// ---- the commands
let input = Buffer.alloc(0), inputAt = 0, output = [];

function flush() {
    const bytes = Buffer.concat(output);
    output = [];
    for (let at = 0; at < bytes.length; )
        at += writeSync(1, bytes, at);
}

function readMore() {
    flush();
    const more = Buffer.alloc(1 << 16), length = readSync(0, more, 0, more.length);
    if (length === 0)
        process.exit(0);
    input = more.subarray(0, length);
    inputAt = 0;
}

function take(length) {
    const taken = Buffer.alloc(length);
    for (let at = 0; at < length; ) {
        if (inputAt === input.length)
            readMore();
        const copied = input.copy(taken, at, inputAt, Math.min(input.length, inputAt + length - at));
        at += copied;
        inputAt += copied;
    }
    return taken;
}

const takeNumber = (length) => take(length).readUIntLE(0, length);
const takeBlock = () => take(takeNumber(4));

// The answer to a call.
const IN_SET = 0, IN_SERIAL = 1, IN_REPLY = 2, IN_HIGH = 3; // the number of a block

function respond(error, number, count, bytes, block, offset, length, image) {
    const head = Buffer.alloc(18);
    head.set([error, number, count, ...bytes, block]);
    head.writeUInt32LE(offset, 6);
    head.writeUInt32LE(length, 10);
    head.writeUInt32LE(image.length, 14);
    output.push(head, Buffer.from(image));
}

function stopWith(error) {
    respond(error, 0, 0, [0, 0], IN_SET, 0, 0, []);
    flush();
    process.exit(3);
}

// ---- blocks in the module's memory
class Lent {
    constructor(flags) {
        this.flags = flags;
        this.at = start;
        this.written = [];
        memory.fill(GUARD_BYTE, start, touched);
    }

    // A block of these bytes; its first byte is a multiple of `alignment`, and else as far off as the flags say.
    place(bytes, alignment = 1) {
        const shift = alignment === 1 ? (this.flags >> 2) & 3 : 0;
        const address = Math.ceil((this.at + GUARD) / 16) * 16 + shift;
        memory.set(bytes, address);
        this.at = address + bytes.length;
        const lent = bytes.length === 0 && this.flags & NULL_FOR_EMPTY ? 0 : address;
        return { address: lent, length: bytes.length, bytes: () => memory.slice(address, address + bytes.length) };
    }

    // The same, and the call may write it.
    placeForWriting(bytes, alignment = 1) {
        const block = this.place(bytes, alignment);
        this.written.push(block);
        return block;
    }

    // A hk_part that points to no block, so that it shows whether the call wrote it.
    placePart() {
        const part = this.placeForWriting(new Uint8Array(8), 4);
        words.setUint32(part.address, start, true);
        words.setUint32(part.address + 4, 1, true);
        return part;
    }

    // The number that a call gives, a whole register, and whether it has changed what it may not.
    call(name, ...values) {
        const end = this.at + GUARD, before = memory.slice(start, end);
        touched = end;
        let number;
        try {
            number = library[name](...values);
        } catch {
            stopWith(CALL_STOPPED);
        }
        const after = memory.slice(start, end);
        for (const { address, length } of this.written)
            if (length > 0)
                after.set(before.subarray(address - start, address - start + length), address - start);
        const kept = Buffer.compare(Buffer.from(before), Buffer.from(after)) === 0 && number >= 0 && number <= 255;
        return { number: number & 255, error: kept ? 0 : BYTES_CHANGED };
    }
}

const pair = (block) => [block.address, block.length];

// Where a part lies in one of these blocks, as [its number, offset, length]; null if in none.
function locate(part, blocks) {
    const at = words.getUint32(part.address, true), length = words.getUint32(part.address + 4, true);
    for (const [number, block] of blocks)
        if (at >= block.address && at - block.address + length <= block.length)
            return [number, at - block.address, length];
    return null;
}

function callSetup(flags) {
    const image = takeBlock(), setup = takeBlock(), lent = new Lent(flags);
    const setLent = lent.place(set), serialLent = lent.place(serial), imageLent = lent.placeForWriting(image), setupLent = lent.place(setup);
    const bytes = lent.placeForWriting(new Uint8Array(2).fill(UNWRITTEN)), count = lent.placeForWriting(new Uint8Array(1).fill(UNWRITTEN)), part = lent.placePart();
    const blocks = [setLent, serialLent, imageLent, setupLent].flatMap(pair);
    const { number, error } = lent.call("hk_setup", ...blocks, bytes.address, count.address, part.address);
    const found = locate(part, [[IN_SET, setLent], [IN_SERIAL, serialLent]]);
    respond(error || (found ? 0 : PART_ASTRAY), number, count.bytes()[0], bytes.bytes(), ...(found ?? [IN_SET, 0, 0]), imageLent.bytes());
}

// The record stands aligned, and its bytes are the image.
function callRecordEvent(flags) {
    const event = takeNumber(1), value = takeNumber(1), record = takeBlock(), setup = takeBlock(), lent = new Lent(flags);
    const setLent = lent.place(set), serialLent = lent.place(serial), recordLent = lent.placeForWriting(record, 4), setupLent = lent.place(setup);
    const bytes = lent.placeForWriting(new Uint8Array(2).fill(UNWRITTEN)), count = lent.placeForWriting(new Uint8Array(1).fill(UNWRITTEN)), part = lent.placePart();
    const { number, error } = lent.call("hk_record_event", ...pair(setLent), ...pair(serialLent), recordLent.address, event, value, ...pair(setupLent), bytes.address, count.address, part.address);
    const found = locate(part, [[IN_SET, setLent], [IN_SERIAL, serialLent]]);
    respond(error || (found ? 0 : PART_ASTRAY), number, count.bytes()[0], bytes.bytes(), ...(found ?? [IN_SET, 0, 0]), recordLent.bytes());
}

// Any event by its number, with two sets and an image of any length.
function callTwoEvent(flags) {
    const event = takeNumber(1), value = takeNumber(1), image = takeBlock(), setup = takeBlock(), lent = new Lent(flags);
    const [setLent, highLent, serialLent] = [set, high, serial].map((bytes) => lent.place(bytes));
    const imageLent = lent.placeForWriting(image), setupLent = lent.place(setup);
    const bytes = lent.placeForWriting(new Uint8Array(2).fill(UNWRITTEN)), count = lent.placeForWriting(new Uint8Array(1).fill(UNWRITTEN)), part = lent.placePart();
    const blocks = [setLent, highLent, serialLent, imageLent].flatMap(pair);
    const { number, error } = lent.call("hk_two_event", ...blocks, event, value, ...pair(setupLent), bytes.address, count.address, part.address);
    const found = locate(part, [[IN_SET, setLent], [IN_HIGH, highLent], [IN_SERIAL, serialLent]]);
    respond(error || (found ? 0 : PART_ASTRAY), number, count.bytes()[0], bytes.bytes(), ...(found ?? [IN_SET, 0, 0]), imageLent.bytes());
}

// Any event by its number, at a port of a row of aligned records; a port that has no room in 32 bits is none of any row's, as the highest that has.
function callPortEvent(operation, flags) {
    const asked = take(8).readBigUInt64LE(), port = Number(asked > 0xffffffffn ? 0xffffffffn : asked) | 0;
    const event = takeNumber(1), value = takeNumber(1), row = takeBlock(), setup = takeBlock(), lent = new Lent(flags);
    const sets = operation === "Q" ? [[IN_SET, lent.place(set)], [IN_HIGH, lent.place(high)]] : [[IN_SET, lent.place(set)]];
    const serialLent = lent.place(serial), rowLent = lent.placeForWriting(row, 4), setupLent = lent.place(setup);
    const bytes = lent.placeForWriting(new Uint8Array(2).fill(UNWRITTEN)), count = lent.placeForWriting(new Uint8Array(1).fill(UNWRITTEN)), part = lent.placePart();
    const name = operation === "Q" ? "hk_two_port_event" : "hk_port_event", blocks = [...sets.map(([, block]) => block), serialLent].flatMap(pair);
    const { number, error } = lent.call(name, ...blocks, rowLent.address, row.length / 32, port, event, value, ...pair(setupLent), bytes.address, count.address, part.address);
    const found = locate(part, [...sets, [IN_SERIAL, serialLent]]);
    respond(error || (found ? 0 : PART_ASTRAY), number, count.bytes()[0], bytes.bytes(), ...(found ?? [IN_SET, 0, 0]), rowLent.bytes());
}

// Any event of the pipe, with one set or two: the image is the order, the room, the pipe record and the image. A part of NULL would lie in the set and in the reply.
function callPipeEvent(operation, flags) {
    const event = takeNumber(1), value = takeNumber(2), [image, pipe, reply, setup] = [takeBlock(), takeBlock(), takeBlock(), takeBlock()];
    const lent = new Lent(set.length === 0 ? flags & ~NULL_FOR_EMPTY : flags);
    const sets = operation === "C" ? [[IN_SET, lent.place(set)], [IN_HIGH, lent.place(high)]] : [[IN_SET, lent.place(set)]];
    const serialLent = lent.place(serial), imageLent = lent.placeForWriting(image), pipeLent = lent.placeForWriting(pipe), replyLent = lent.place(reply), setupLent = lent.place(setup);
    const out = lent.placeForWriting(new Uint8Array(6).fill(UNWRITTEN)), part = lent.placePart();
    const name = operation === "C" ? "hk_two_pipe_event" : "hk_pipe_event";
    const blocks = [...sets.map(([, block]) => block), serialLent, imageLent, pipeLent, replyLent].flatMap(pair);
    const { number, error } = lent.call(name, ...blocks, event, value, ...pair(setupLent), out.address, part.address);
    const found = locate(part, [sets[0], [IN_REPLY, replyLent], ...sets.slice(1), [IN_SERIAL, serialLent]]);
    const [order, count, first, second, ...room] = out.bytes();
    respond(error || (found ? 0 : PART_ASTRAY), number, count, [first, second], ...(found ?? [IN_SET, 0, 0]), [order, ...room, ...pipeLent.bytes(), ...imageLent.bytes()]);
}

function callTwoOpen(flags) {
    const image = takeBlock(), lent = new Lent(flags);
    const blocks = [set, high, serial].map((bytes) => lent.place(bytes)), imageLent = lent.placeForWriting(image);
    const { number, error } = lent.call("hk_two_open", ...[...blocks, imageLent].flatMap(pair));
    respond(error, number, 0, [0, 0], IN_SET, 0, 0, imageLent.bytes());
}

const EVENTS = {
    o: "hk_open", f: "hk_super_open", e: "hk_status_end", r: "hk_bus_reset", h: "hk_halt", p: "hk_packet_passed",
    P: "hk_power", z: "hk_suspend", y: "hk_resume", a: "hk_wake", R: "hk_bus_reset_to",
};
const VALUED = "hpPR";

function callEvent(operation, flags) {
    const value = VALUED.includes(operation) ? [takeNumber(1)] : [];
    const image = takeBlock(), lent = new Lent(flags);
    const blocks = [lent.place(set), lent.place(serial)], imageLent = lent.placeForWriting(image);
    const { number, error } = lent.call(EVENTS[operation], ...[...blocks, imageLent].flatMap(pair), ...value);
    respond(error, number, 0, [0, 0], IN_SET, 0, 0, imageLent.bytes());
}

// The image is only read.
function callEndpoint(operation, flags) {
    const index = takeNumber(1), image = takeBlock(), lent = new Lent(flags);
    const sets = operation === "N" ? [[IN_SET, lent.place(set)], [IN_HIGH, lent.place(high)]] : [[IN_SET, lent.place(set)]];
    const serialLent = lent.place(serial), imageLent = lent.place(image), part = lent.placePart();
    const name = operation === "N" ? "hk_two_endpoint" : "hk_endpoint", blocks = [...sets.map(([, block]) => block), serialLent, imageLent];
    const { number, error } = lent.call(name, ...blocks.flatMap(pair), index, part.address);
    const found = locate(part, sets);
    respond(error || (found ? 0 : PART_ASTRAY), number, 0, [0, 0], ...(found ?? [IN_SET, 0, 0]), imageLent.bytes());
}

function callPacket(flags) {
    const length = takeNumber(4), asked = takeNumber(2), size = takeNumber(4), packet = takeNumber(4), lent = new Lent(flags);
    const reply = lent.place(new Uint8Array(length).fill(GUARD_BYTE)), part = lent.placePart();
    const { number, error } = lent.call("hk_packet", ...pair(reply), asked, size, packet, part.address);
    const found = locate(part, [[IN_REPLY, reply]]);
    respond(error || (found ? 0 : PART_ASTRAY), number, 0, [0, 0], ...(found ?? [IN_REPLY, 0, 0]), []);
}

// What a maker's call reads, before its buffer; the buffer is lent as the image is: it is given back whole.
const MAKERS = {
    w: ["hk_write", () => [takeBlock(), serial]],
    F: ["hk_super_write", () => [takeBlock(), serial]],
    i: ["hk_import", () => [takeBlock()]],
    x: ["hk_export", () => [set, serial]],
};

// The set is the buffer.
function callTrim(flags) {
    const lent = new Lent(flags), buffer = lent.placeForWriting(takeBlock()), serialLent = lent.place(serial);
    const total = lent.placeForWriting(new Uint8Array(2).fill(UNWRITTEN), 2);
    const { number, error } = lent.call("hk_trim", ...pair(buffer), ...pair(serialLent), total.address);
    respond(error, number, 0, [0, 0], IN_SET, 0, words.getUint16(total.address, true), buffer.bytes());
}

const SERIAL_BROKEN = 6;
const EXPLAINERS = { X: "hk_explain", Y: "hk_super_explain", Z: "hk_two_explain" };
const TOLD_BLOCKS = [IN_SET, IN_HIGH, IN_SERIAL];

// The answer's bytes are the rule, its block and its offset are the place.
function callExplain(operation, flags) {
    const lent = new Lent(flags), isTwo = operation === "Z", blocks = (isTwo ? [set, high, serial] : [set, serial]).map((bytes) => lent.place(bytes));
    const [block, rule, place] = [1, 2, 4].map((size) => lent.placeForWriting(new Uint8Array(size).fill(UNWRITTEN), size));
    const results = [...(isTwo ? [block] : []), rule, place].map(({ address }) => address);
    const { number, error } = lent.call(EXPLAINERS[operation], ...blocks.flatMap(pair), ...results);
    const told = words.getUint16(rule.address, true), found = isTwo ? TOLD_BLOCKS[words.getUint8(block.address)] : number === SERIAL_BROKEN ? IN_SERIAL : IN_SET;
    respond(error || (found === undefined ? PART_ASTRAY : 0), number, 2, [told & 255, told >> 8], found ?? IN_SET, words.getUint32(place.address, true), 0, new Uint8Array(0));
}

function callMaker(operation, flags) {
    const [name, read] = MAKERS[operation], lent = new Lent(flags);
    const blocks = read().map((bytes) => lent.place(bytes)), buffer = lent.placeForWriting(takeBlock());
    const written = lent.placeForWriting(new Uint8Array(2).fill(UNWRITTEN), 2);
    const { number, error } = lent.call(name, ...[...blocks, buffer].flatMap(pair), written.address);
    respond(error, number, 0, [0, 0], IN_SET, 0, words.getUint16(written.address, true), buffer.bytes());
}

for (;;) {
    const [code, flags] = take(2), operation = String.fromCharCode(code);
    if (operation === "S")
        set = takeBlock();
    else if (operation === "U")
        serial = takeBlock();
    else if (operation === "s")
        callSetup(flags);
    else if (operation === "v")
        callRecordEvent(flags);
    else if (operation === "H")
        high = takeBlock();
    else if (operation === "n" || operation === "N")
        callEndpoint(operation, flags);
    else if (operation === "q" || operation === "Q")
        callPortEvent(operation, flags);
    else if (operation === "c" || operation === "C")
        callPipeEvent(operation, flags);
    else if (operation === "O")
        callTwoOpen(flags);
    else if (operation === "V")
        callTwoEvent(flags);
    else if (operation === "k")
        callPacket(flags);
    else if (operation === "t")
        callTrim(flags);
    else if (operation in EXPLAINERS)
        callExplain(operation, flags);
    else if (operation in MAKERS)
        callMaker(operation, flags);
    else if (operation in EVENTS)
        callEvent(operation, flags);
    else
        stopWith(COMMAND_WRONG);
}
