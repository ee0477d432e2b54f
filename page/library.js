// The proved library: the WebAssembly module, and its calls with blocks laid into its memory. All that the page answers comes from here.

const NO_BYTES = new Uint8Array(0);

// The events by their numbers in include/heideklonk.h.
export const EVENT = { SETUP: 0, STATUS_END: 1, BUS_RESET: 2, HALT: 3, PACKET_PASSED: 4, POWER: 5, SUSPEND: 6, RESUME: 7, WAKE: 8 };
// The events of the pipe that are not a script's own words.
export const PIPE = { SETUP: 0, RESET: 3 };
const IMAGE_LENGTH = 32;
const SERIAL_BROKEN = 6, IN_SERIAL = 2;
export const LONGEST_SET = 16384;

// Blocks for one call, one behind the other past __heap_base.
class Lent {
    constructor(library) {
        this.library = library;
        this.at = library.start;
    }

    // A block of these bytes, aligned for any of them.
    place(bytes) {
        const address = Math.ceil(this.at / 16) * 16;
        this.at = address + bytes.length;
        this.library.reserve(this.at);
        this.library.memory().set(bytes, address);
        return { address, length: bytes.length };
    }

    read(block, length = block.length) {
        return this.library.memory().slice(block.address, block.address + length);
    }

    number(block) {
        return this.read(block).reduce((sum, byte, at) => sum + byte * 256 ** at, 0);
    }

    // Which of these blocks, by name, a hk_part lies in, and where.
    locate(part, blocks) {
        const [at, length] = [this.number({ ...part, length: 4 }), this.number({ address: part.address + 4, length: 4 })];
        for (const [name, block] of Object.entries(blocks))
            if (at >= block.address && at + length <= block.address + block.length)
                return { block: name, offset: at - block.address, length };
        return { block: "", offset: 0, length: 0 };
    }
}

const pair = (block) => [block.address, block.length];

export class Library {
    static async load(bytes) {
        const { instance } = await WebAssembly.instantiate(bytes);
        return new Library(instance.exports);
    }

    constructor(exports) {
        this.exports = exports;
        this.start = exports.__heap_base.value;
    }

    has(name) {
        return typeof this.exports[name] === "function";
    }

    memory() {
        return new Uint8Array(this.exports.memory.buffer);
    }

    reserve(end) {
        const missing = end - this.exports.memory.buffer.byteLength;
        if (missing > 0)
            this.exports.memory.grow(Math.ceil(missing / 65536));
    }

    // Power-on: `name` is hk_open, hk_two_open or hk_super_open, and `sets` are the one or two that it takes.
    open(name, sets, serial, image = new Uint8Array(IMAGE_LENGTH)) {
        const lent = new Lent(this), blocks = [...sets, serial].map((bytes) => lent.place(bytes)), record = lent.place(image);
        const number = this.exports[name](...[...blocks, record].flatMap(pair));
        return { number, record: lent.read(record) };
    }

    // Any event on a record. Of two sets the first is the full-speed one; the part lies in one of them, or in the serial block.
    event(sets, serial, record, event, value = 0, setup = NO_BYTES) {
        const lent = new Lent(this), placed = sets.map((bytes) => lent.place(bytes)), serialLent = lent.place(serial);
        const recordLent = lent.place(record), setupLent = lent.place(setup);
        const bytes = lent.place(new Uint8Array(2)), count = lent.place(new Uint8Array(1)), part = lent.place(new Uint8Array(8));
        const held = [...placed, serialLent].flatMap(pair), results = [bytes.address, count.address, part.address];
        const number = sets.length === 2
            ? this.exports.hk_two_event(...held, ...pair(recordLent), event, value, ...pair(setupLent), ...results)
            : this.exports.hk_record_event(...held, recordLent.address, event, value, ...pair(setupLent), ...results);
        const found = lent.locate(part, { ...placed, serial: serialLent });
        const whole = found.block === "serial" ? serial : sets[found.block] ?? NO_BYTES, given = lent.read(bytes, lent.number(count));
        const data = given.length > 0 ? given : whole.slice(found.offset, found.offset + found.length);
        return { number, bytes: given, part: found, data, record: lent.read(recordLent) };
    }

    // Any event of the pipe: its number, the order with the packet or the room, and both records.
    pipeEvent(sets, serial, { record, pipe, reply }, { event, value = 0, setup = NO_BYTES }) {
        const lent = new Lent(this), placed = sets.map((bytes) => lent.place(bytes)), [serialLent, recordLent, pipeLent, replyLent, setupLent] = [serial, record, pipe, reply, setup].map((bytes) => lent.place(bytes));
        const out = lent.place(new Uint8Array(6)), part = lent.place(new Uint8Array(8));
        const held = [...placed, serialLent, recordLent, pipeLent, replyLent].flatMap(pair), name = sets.length === 2 ? "hk_two_pipe_event" : "hk_pipe_event";
        const number = this.exports[name](...held, event, value, ...pair(setupLent), out.address, part.address);
        const [order, count, first, second, low, high] = lent.read(out), found = lent.locate(part, { ...placed, reply: replyLent, serial: serialLent });
        const whole = { reply, serial }[found.block] ?? sets[found.block] ?? NO_BYTES, bytes = Uint8Array.from([first, second].slice(0, count));
        const packet = count > 0 ? bytes : whole.slice(found.offset, found.offset + found.length), inside = { reply: "reply", serial: "serial block" }[found.block] ?? "set";
        const place = found.length > 0 ? ` of the ${inside} at byte ${found.offset}` : "";
        return { number, order, room: low + 256 * high, bytes, part: found, packet, place, record: lent.read(recordLent), pipe: lent.read(pipeLent) };
    }

    // The number-th endpoint descriptor of the current settings.
    endpoint(sets, serial, record, number) {
        const lent = new Lent(this), placed = sets.map((bytes) => lent.place(bytes)), serialLent = lent.place(serial);
        const recordLent = lent.place(record), part = lent.place(new Uint8Array(8));
        const name = sets.length === 2 ? "hk_two_endpoint" : "hk_endpoint";
        const answered = this.exports[name](...[...placed, serialLent, recordLent].flatMap(pair), number, part.address);
        const found = lent.locate(part, { ...placed });
        return { number: answered, part: found, data: (sets[found.block] ?? NO_BYTES).slice(found.offset, found.offset + found.length) };
    }

    // The number-th packet of a reply.
    packet(length, asked, size, number) {
        const lent = new Lent(this), reply = lent.place(new Uint8Array(length)), part = lent.place(new Uint8Array(8));
        const answered = this.exports.hk_packet(...pair(reply), asked, size, number, part.address);
        return { number: answered, ...lent.locate(part, { reply }) };
    }

    // The lengths of all packets of a reply.
    packets(length, asked, size) {
        const found = [];
        for (let number = 0; ; number++) {
            const packet = this.packet(length, asked, size, number);
            if (packet.number !== 0)
                return found;
            found.push(packet.length);
        }
    }

    // A maker's call that writes to a buffer: hk_write, hk_super_write, hk_import, hk_export, by what each reads.
    write(name, read, buffer = new Uint8Array(LONGEST_SET)) {
        const lent = new Lent(this), blocks = read.map((bytes) => lent.place(bytes));
        const bufferLent = lent.place(buffer), written = lent.place(new Uint8Array(2));
        const number = this.exports[name](...[...blocks, bufferLent].flatMap(pair), written.address);
        return { number, written: lent.read(bufferLent, lent.number(written)), buffer: lent.read(bufferLent) };
    }

    trim(set, serial) {
        const lent = new Lent(this), setLent = lent.place(set), serialLent = lent.place(serial), total = lent.place(new Uint8Array(2));
        const number = this.exports.hk_trim(...pair(setLent), ...pair(serialLent), total.address);
        return { number, written: lent.read(setLent, lent.number(total)), buffer: lent.read(setLent) };
    }

    // The opening number, the broken rule's own number (0 for none), the byte where it is broken, and the block that it is a byte of: `name` is hk_explain,
    // hk_two_explain or hk_super_explain, and `sets` are the one or two that it takes.
    explain(name, sets, serial) {
        const lent = new Lent(this), blocks = [...sets, serial].map((bytes) => lent.place(bytes)), [block, rule, place] = [1, 2, 4].map((size) => lent.place(new Uint8Array(size)));
        const results = [...(sets.length === 2 ? [block] : []), rule, place].map(({ address }) => address);
        const number = this.exports[name](...blocks.flatMap(pair), ...results);
        return { number, rule: lent.number(rule), place: lent.number(place), block: sets.length === 2 ? lent.number(block) : number === SERIAL_BROKEN ? IN_SERIAL : 0 };
    }
}
