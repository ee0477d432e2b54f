// The panel where two sets stand side by side.
import { byId, button, element, fill } from "./element.js";
import { differences, firstDifference } from "./difference.js";
import { readFile } from "./files.js";
import { countWords } from "./bytes.js";

const NAMED_ALIKE = 3;
const NO_OTHER = "Choose the other set, or keep this one as it is and change it: then both stand here.";
const ALL_ALIKE = "All descriptors are alike; they stand in the set in another way.";
const column = (name) => element("th", { scope: "col" }, name);

// Rows that are alike are told together.
function grouped(rows) {
    const groups = [];
    for (const row of rows)
        if (row.alike && groups.at(-1)?.alike)
            groups.at(-1).alike.push(row);
        else
            groups.push(row.alike ? { alike: [row] } : row);
    return groups;
}

function alikeRow({ alike }) {
    const names = alike.slice(0, NAMED_ALIKE).map(({ title }) => title).join("; "), more = alike.length > NAMED_ALIKE ? " …" : "";
    return element("tr", { class: "alike" }, element("td", { colspan: 3 }, `${countWords(alike.length, "descriptor")} alike: ${names}${more}`));
}

export class Comparison {
    // `show` leads to a byte of the set above; `plain` reads a file that may be hexadecimal text.
    constructor({ show, plain }) {
        Object.assign(this, { show, other: null });
        byId("choose-other").addEventListener("change", (event) => this.take(event.target, plain));
        byId("keep-other").addEventListener("click", () => this.compareWith({ name: `${this.names[0]}, as it was`, bytes: this.board.sets[0] }));
        byId("no-other").addEventListener("click", () => this.compareWith(null));
    }

    async take(input, plain) {
        if (input.files.length > 0)
            this.compareWith(plain(await readFile(input.files[0])));
        input.value = "";
    }

    compareWith(other) {
        this.other = other;
        if (this.board)
            this.look();
    }

    lend(board, names) {
        Object.assign(this, { board, names });
    }

    // What the set above is compared with: what was chosen, or the other set of a pair.
    partner() {
        if (this.other)
            return this.other;
        return this.board.sets.length > 1 ? { name: this.names[1], bytes: this.board.sets[1] } : null;
    }

    look() {
        const partner = this.partner(), [bytes] = this.board.sets;
        byId("this-name").textContent = `${this.names[0]}, ${countWords(bytes.length, "byte")}`;
        byId("other-name").textContent = partner ? `${partner.name}, ${countWords(partner.bytes.length, "byte")}` : "none";
        byId("no-other").disabled = this.other === null;
        fill(byId("differences"), partner ? this.told(partner) : element("p", { class: "quiet" }, NO_OTHER));
    }

    told(partner) {
        const [bytes] = this.board.sets, { same, rows } = differences(bytes, partner.bytes, this.board.kind);
        if (same)
            return element("p", { class: "outcome accepted" }, "Byte for byte the same.");
        const differing = rows.filter((row) => !row.alike).length, place = firstDifference(bytes, partner.bytes);
        const words = differing > 0 ? `${countWords(differing, "descriptor")} of ${rows.length} not alike.` : ALL_ALIKE;
        const first = place < bytes.length ? button(`byte ${place}`, () => this.show(0, place), { class: "link" }) : `byte ${place}, where ${this.names[0]} ends`;
        return [
            element("p", { class: "outcome refused" }, words, " "),
            element("p", {}, "The first difference is at ", first, "."),
            element("table", { class: "compared" },
                element("thead", {}, element("tr", {}, ["What", this.names[0], partner.name].map(column))),
                element("tbody", {}, grouped(rows).flatMap((row) => this.rowsOf(row)))),
        ];
    }

    rowsOf(row) {
        if (row.alike)
            return [alikeRow(row)];
        const title = row.place === undefined ? row.title : button(row.title, () => this.show(0, row.place), { class: "link" });
        const heading = (...cells) => element("tr", { class: "differs" }, element("th", { scope: "row" }, title), cells);
        if (row.only !== undefined)
            return [heading(...[0, 1].map((side) => element("td", {}, row.only === side ? "only here" : "not there")))];
        const fields = row.fields.map(({ name, one, other }) =>
            element("tr", {}, element("th", { scope: "row", class: "field" }, name), element("td", {}, one), element("td", {}, other)));
        return [heading(element("td", { colspan: 2 })), ...fields];
    }
}

