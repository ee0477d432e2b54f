// A board with its sets, its serial block and its record: each event goes to the library, and its answer comes back with all that there is to show.
import { EVENT } from "./library.js";
import { packetSize } from "./set.js";
import { speedOf } from "./record.js";
import { word } from "./bytes.js";

// The kinds of set: the calls of the library that open and explain it and those that it needs, the names of its sets and the limits that each goes by, and
// whether the library answers events from it.
export const KINDS = {
    one: { name: "One set, full speed", open: "hk_open", explain: "hk_explain", needs: [], sets: ["set"], limits: ["alone"], answers: true },
    two: {
        name: "Two sets, full and high speed", open: "hk_two_open", explain: "hk_two_explain", needs: ["hk_two_open", "hk_two_event"],
        sets: ["full-speed set", "high-speed set"], limits: ["paired", "high"], answers: true,
    },
    super: { name: "SuperSpeed set", open: "hk_super_open", explain: "hk_super_explain", needs: ["hk_super_open"], sets: ["SuperSpeed set"], limits: ["super"], answers: false },
};

// The serial block's number among the blocks that a fault may be in; the sets' are 0 and 1.
export const SERIAL = 2;

export const kindsOf = (library) => Object.keys(KINDS).filter((kind) => KINDS[kind].needs.every((name) => library.has(name)));

export class Board {
    constructor(library, kind, sets, serial) {
        Object.assign(this, { library, kind, sets, serial });
        this.open();
    }

    // Power-on.
    open() {
        const { number, record } = this.library.open(KINDS[this.kind].open, this.sets, this.serial);
        this.number = number;
        this.record = record;
        return number;
    }

    setInUse() {
        return this.sets[this.sets.length === 2 ? speedOf(this.record) : 0];
    }

    // An event, as { event, value, setup }: the answer, its packets, and the record before and after.
    happen({ event, value = 0, setup = new Uint8Array(0) }) {
        const before = this.record, size = packetSize(this.setInUse());
        const answer = this.library.event(this.sets, this.serial, before, event, value, setup);
        this.record = answer.record;
        const asked = event === EVENT.SETUP && setup.length === 8 ? word(setup, 6) : 0;
        const packets = answer.number === 0 && asked > 0 ? this.library.packets(answer.data.length, asked, size) : [];
        return { ...answer, asked, packets, before };
    }

    // The endpoints of the current settings: each descriptor, and where it stands in the set.
    endpoints() {
        const name = this.sets.length === 2 ? "hk_two_endpoint" : "hk_endpoint", found = [];
        while (this.library.has(name)) {
            const { number, part, data } = this.library.endpoint(this.sets, this.serial, this.record, found.length);
            if (number !== 0)
                break;
            found.push({ place: part.offset, data });
        }
        return found;
    }
}
