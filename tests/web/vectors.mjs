// A file of vectors asked of the library as the page calls it, in node or in a browser. `listing` gives the lister's lines of a set and a number.
const EVENTS = { setup: 0, status: 1, reset: 2, halt: 3, passed: 4, power: 5, suspend: 6, resume: 7, wake: 8 };
const WIRE = ["setup", "taken", "received", "reset", "reply", "room", "accept", "refuse"];
const IMAGE = 32, PIPE = 16;

const bytesOf = (text) => Uint8Array.from(text === "-" ? [] : text.match(/../g), (pair) => parseInt(pair, 16));
const textOf = (bytes) => Array.from(bytes, (byte) => byte.toString(16).padStart(2, "0")).join("") || "-";

// The event, the value and the setup of a question.
function eventOf(words) {
    if (words[0] === "other")
        return [parseInt(words[1], 16), parseInt(words[2], 16), bytesOf(words[3])];
    return [EVENTS[words[0]], words[0] === "setup" ? 0 : parseInt(words[1] ?? "0", 16), words[0] === "setup" ? bytesOf(words[1]) : new Uint8Array(0)];
}

// The same of a question of the pipe.
function wireOf(words) {
    if (words[0] === "other")
        return { event: parseInt(words[1], 16), value: Number(words[2]), setup: bytesOf(words[3]) };
    return { event: WIRE.indexOf(words[0]), value: words[0] === "setup" ? 0 : Number(words[1] ?? 0), setup: words[0] === "setup" ? bytesOf(words[1]) : new Uint8Array(0) };
}

class Lent {
    constructor(library, listing) {
        Object.assign(this, { library, listing, set: new Uint8Array(0), high: null, serial: new Uint8Array(0), record: new Uint8Array(IMAGE), pipe: new Uint8Array(PIPE), reply: new Uint8Array(0), carries: true });
    }

    sets() {
        return this.high ? [this.set, this.high] : [this.set];
    }

    // PART of an answer.
    part({ block, offset, length }) {
        const name = block === "serial" || block === "reply" ? block : this.high ? ["set", "high"][block] : "set";
        return length === 0 && offset === 0 && name === "set" ? "-" : `${name}:${offset}:${length}`;
    }

    opened(name) {
        const { number, record } = this.library.open(name, this.sets(), this.serial, this.record);
        this.left = record;
        return `${number} ${textOf(record)}`;
    }

    happened(words) {
        const answer = this.library.event(this.sets(), this.serial, this.record, ...eventOf(words));
        this.left = answer.record;
        return `${answer.number} ${textOf(answer.bytes)} ${this.part(answer.part)} ${textOf(answer.record)}`;
    }

    heard(words) {
        const { number, order, room, bytes, part, pipe, record } = this.library.pipeEvent(this.sets(), this.serial, this, wireOf(words));
        return `${number} ${order} ${room} ${textOf(bytes)} ${this.part(part)} ${textOf(pipe)} ${textOf(record)}`;
    }

    counted(reply, asked, size) {
        const first = this.library.packet(reply, asked, size, 0).number, packets = this.library.packets(reply, asked, size);
        return first === 0 || (reply === 0 && asked === 0 && [8, 16, 32, 64].includes(size)) ? `0 ${packets.length}` : "15 0";
    }

    made({ number, written, buffer }) {
        return `${number} ${written.length} ${textOf(buffer)}`;
    }

    listed(name) {
        const { number } = this.library.open(name, [this.set], this.serial);
        return textOf(new TextEncoder().encode(this.listing(this.set, number).map((line) => `${line}\n`).join("")));
    }

    // The answer to a question; undefined where the page has no call for it.
    answer([question, ...words]) {
        const numbers = words.map(Number), { library } = this;
        switch (question) {
        case "open": return this.opened(this.high ? "hk_two_open" : "hk_open");
        case "opensuper": return library.has("hk_super_open") ? this.opened("hk_super_open") : undefined;
        case "event": return this.record.length === IMAGE ? this.happened(words) : undefined;
        case "wire": return library.has("hk_two_pipe_event") ? this.heard(words) : undefined;
        case "packet": { const { number, offset, length } = library.packet(...numbers); return `${number} ${offset} ${length}`; }
        case "count": return this.counted(...numbers);
        case "endpoint": { const { number, part } = library.endpoint(this.sets(), this.serial, this.record, numbers[0]); return `${number} ${this.part(part)}`; }
        case "list": return this.high ? undefined : this.listed("hk_open");
        case "listsuper": return library.has("hk_super_open") ? this.listed("hk_super_open") : undefined;
        case "write": return this.made(library.write("hk_write", [bytesOf(words[0]), this.serial], bytesOf(words[1])));
        case "writesuper": return library.has("hk_super_write") ? this.made(library.write("hk_super_write", [bytesOf(words[0]), this.serial], bytesOf(words[1]))) : undefined;
        case "import": return this.made(library.write("hk_import", [bytesOf(words[0])], bytesOf(words[1])));
        case "export": return this.made(library.write("hk_export", [this.set, this.serial], bytesOf(words[0])));
        case "trim": return this.made(library.trim(this.set, this.serial));
        }
        return undefined;
    }

    take([word, value]) {
        if (word === "rules")
            this.carries = false;
        else
            this[word] = value === "none" ? null : bytesOf(value);
    }
}

// How many questions were asked, how many the page has no call for, and those answered otherwise.
export function askVectors(library, listing, text) {
    const lent = new Lent(library, listing), result = { asked: 0, passed: 0, differing: [] };
    for (const line of text.split("\n")) {
        const [question, expected] = line.replace(/#.*/, "").trim().split(" -> ");
        if (question === "")
            continue;
        if (expected === undefined) {
            lent.take(question.split(" "));
            continue;
        }
        const two = lent.high !== null && !library.has("hk_two_event"), answer = two ? undefined : lent.answer(question.split(" "));
        if (answer === undefined)
            result.passed++;
        else
            result.asked++;
        if (answer !== undefined && answer !== expected)
            result.differing.push(`${question.slice(0, 200)} -> ${answer.slice(0, 200)}, and not ${expected.slice(0, 200)}`);
        if (lent.carries && /^(open|event) /.test(`${question} `))
            lent.record = bytesOf(expected.split(" ").at(-1));
    }
    return result;
}
