// The bytes of a block, in rows: a grid with one byte at a time under the keys, a range that is chosen and a byte that is marked as broken.
import { element, fill } from "./element.js";
import { hexadecimal } from "./bytes.js";

const ROWS_IN_CHUNK = 16; // rows are built by the chunk, when they come near to being seen
const ROW_HEIGHT = 1.55;
const narrow = globalThis.matchMedia?.("(max-width: 44rem)");

const letterOf = (byte) => (byte > 32 && byte < 127 ? String.fromCharCode(byte) : byte === 32 ? " " : "·");

export class Hexadecimal {
    constructor(grid, { onchoose }) {
        this.grid = grid;
        this.onchoose = onchoose;
        const near = (entries) => entries.filter((entry) => entry.isIntersecting).forEach((entry) => this.build(entry.target));
        this.seen = new IntersectionObserver(near, { root: grid, rootMargin: "400px" });
        this.show(new Uint8Array(0), []);
        grid.addEventListener("keydown", (event) => this.key(event));
        grid.addEventListener("click", (event) => this.click(event));
        narrow.addEventListener("change", () => this.showAgain());
    }

    // Shows these bytes; `kinds` has the kind of each, `broken` the places of the bytes to mark, the first before all.
    show(bytes, kinds, broken = []) {
        Object.assign(this, { bytes, kinds, broken, cells: [], range: [0, 0], at: 0, columns: narrow.matches ? 8 : 16 });
        this.chunks = [];
        this.seen.disconnect();
        for (let start = 0; start < bytes.length; start += ROWS_IN_CHUNK * this.columns)
            this.chunks.push(this.chunk(start));
        fill(this.grid, this.chunks.length > 0 ? this.chunks : element("p", { class: "quiet" }, "no bytes"));
        this.chunks.forEach((chunk) => this.seen.observe(chunk));
        this.grid.scrollTop = 0;
        this.grid.setAttribute("aria-rowcount", Math.ceil(bytes.length / this.columns));
        this.grid.removeAttribute("aria-activedescendant");
    }

    // The same in rows of another length.
    showAgain() {
        const [start, end] = this.range;
        this.show(this.bytes, this.kinds, this.broken);
        this.choose(start, end);
    }

    // Rows that are still to be built, as high as they will be.
    chunk(start) {
        const end = Math.min(start + ROWS_IN_CHUNK * this.columns, this.bytes.length), chunk = element("div", { class: "chunk", role: "rowgroup" });
        chunk.style.height = `${Math.ceil((end - start) / this.columns) * ROW_HEIGHT}em`;
        Object.assign(chunk, { from: start, to: end });
        return chunk;
    }

    build(chunk) {
        if (chunk.firstChild !== null)
            return;
        for (let at = chunk.from; at < chunk.to; at += this.columns)
            chunk.append(this.row(at, Math.min(at + this.columns, chunk.to)));
    }

    row(start, end) {
        const offset = element("span", { class: "offset", role: "rowheader" }, `${start}`);
        const row = element("div", { class: "row", role: "row", "aria-rowindex": 1 + start / this.columns }, offset);
        for (let at = start; at < end; at++)
            row.append(this.cell(at));
        if (this.columns === 16)
            row.append(element("span", { class: "letters", "aria-hidden": "true" }, Array.from(this.bytes.slice(start, end), letterOf).join("")));
        return row;
    }

    cell(at) {
        const cell = element("span", { id: `byte-${at}`, role: "gridcell", class: `byte ${this.kinds[at] ?? ""}` }, hexadecimal(this.bytes[at]));
        cell.classList.toggle("broken", at === this.broken[0]);
        cell.classList.toggle("wrong", this.broken.includes(at, 1));
        cell.classList.toggle("chosen", at >= this.range[0] && at < this.range[1]);
        cell.classList.toggle("here", at === this.at);
        this.cells[at] = cell;
        return cell;
    }

    // The cells of a range that are built.
    built([start, end]) {
        return this.cells.slice(start, end).filter((cell) => cell !== undefined);
    }

    // Chooses the bytes from start to end, and brings the first into view.
    choose(start, end, { scroll = true } = {}) {
        for (const cell of this.built(this.range))
            cell.classList.remove("chosen");
        this.range = [start, end];
        for (const cell of this.built(this.range))
            cell.classList.add("chosen");
        this.stand(start, scroll);
    }

    // Stands at a byte, under the keys.
    stand(at, scroll = true) {
        this.cells[this.at]?.classList.remove("here");
        this.at = at;
        const chunk = this.chunks[Math.floor(at / (ROWS_IN_CHUNK * this.columns))];
        if (!chunk || at >= this.bytes.length)
            return;
        this.build(chunk);
        const cell = this.cells[at];
        cell.classList.add("here");
        this.grid.setAttribute("aria-activedescendant", cell.id);
        if (scroll)
            this.bringIntoView(cell);
    }

    // Scrolls the grid alone, so that the page stays where it is.
    bringIntoView(cell) {
        const row = cell.parentElement.getBoundingClientRect(), grid = this.grid.getBoundingClientRect();
        if (row.top < grid.top || row.bottom > grid.bottom)
            this.grid.scrollTop += row.top - grid.top - grid.height / 3;
    }

    key(event) {
        const { columns, at: here } = this, last = this.bytes.length - 1;
        const steps = { ArrowLeft: -1, ArrowRight: 1, ArrowUp: -columns, ArrowDown: columns, PageUp: -8 * columns, PageDown: 8 * columns, Home: -here, End: last - here };
        if (!(event.key in steps) || this.bytes.length === 0)
            return;
        event.preventDefault();
        const at = Math.min(last, Math.max(0, here + steps[event.key]));
        this.stand(at);
        this.onchoose(at);
    }

    click(event) {
        const found = /^byte-(\d+)$/.exec(event.target.id);
        if (found) {
            this.stand(Number(found[1]), false);
            this.onchoose(Number(found[1]));
        }
    }
}
