// What is lent to the library: the kind, one or two sets and the serial block, each under a name; what was lent before comes back.
import { History } from "./history.js";
import { KINDS } from "./board.js";
import { fromBase64, toBase64 } from "./bytes.js";

export const NO_FILE = { name: "", bytes: new Uint8Array(0) };
const NOTHING = { kind: "one", set: NO_FILE, high: NO_FILE, serial: NO_FILE };
const BLOCKS = ["set", "high", "serial"];

const texts = new WeakMap(); // of bytes that were made text before: what is lent is never changed in place

function textOfBytes(bytes) {
    if (!texts.has(bytes))
        texts.set(bytes, toBase64(bytes));
    return texts.get(bytes);
}

// A state with its bytes as text, and back.
const inText = (state) => ({ ...state, ...Object.fromEntries(BLOCKS.map((block) => [block, { name: state[block].name, bytes: textOfBytes(state[block].bytes) }])) });
const inBytes = (state) => ({ ...state, ...Object.fromEntries(BLOCKS.map((block) => [block, { name: `${state[block].name}`, bytes: fromBase64(state[block].bytes) }])) });

// What was kept, unless it is not of this page's making.
function recalled(kept) {
    try {
        const states = kept.states.map(inBytes);
        return states.every(({ kind }) => kind in KINDS) ? { states, at: kept.at } : {};
    } catch {
        return {};
    }
}

export class Lent {
    constructor(kept) {
        this.history = new History(recalled(kept));
    }

    get state() {
        return this.history.state ?? NOTHING;
    }

    get isEmpty() {
        return this.history.state === undefined;
    }

    get kind() {
        return this.state.kind;
    }

    get set() {
        return this.state.set;
    }

    get high() {
        return this.state.high;
    }

    get serial() {
        return this.state.serial;
    }

    // The sets that this kind takes.
    get sets() {
        return [this.set, this.high].slice(0, KINDS[this.kind].sets.length);
    }

    // What a verdict is about.
    get name() {
        return this.sets.map(({ name }) => name || "no set").join(" and ");
    }

    get canUndo() {
        return this.history.canUndo;
    }

    get canRedo() {
        return this.history.canRedo;
    }

    note(change) {
        this.history.note({ ...this.state, ...change });
    }

    undo() {
        this.history.undo();
    }

    redo() {
        this.history.redo();
    }

    kept() {
        const { states, at } = new History({ states: this.history.states.map(inText), at: this.history.at }).kept();
        return { states, at };
    }
}
