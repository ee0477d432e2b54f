// The page: what is lent, and the panels that show it.
import { FACTS } from "./facts.js";
import { byId, button, element, fill, save } from "./element.js";
import { Library } from "./library.js";
import { Board, KINDS, kindsOf } from "./board.js";
import { Inspection } from "./inspection.js";
import { Enumeration } from "./enumeration.js";
import { Console } from "./console.js";
import { Comparison } from "./comparison.js";
import { Workshop } from "./workshop.js";
import { Lent, NO_FILE } from "./lent.js";
import { forget, keep, recall } from "./memory.js";
import { judge, showComplaint, showVerdict } from "./verdict.js";
import { guess, plain, readFile, textOfFile } from "./files.js";
import { setOfText } from "./making.js";
import { cOf } from "./clanguage.js";
import { isOfPair } from "./pairs.js";
import { listing } from "./set.js";
import { countWords, fromBase64 } from "./bytes.js";

// Numbers of two sets in the right order: accepted, or but for the serial block or for types 6 and 7.
const GO_TOGETHER = [0, 6, 24];
const isHighByName = ({ name }) => /high|hs/i.test(name);

class Page {
    constructor(library) {
        this.library = library;
        this.lent = new Lent(recall().lent);
        this.inspection = new Inspection({ onchange: (block, place, byte) => this.changeByte(block, place, byte) });
        this.enumeration = new Enumeration(library);
        this.console = new Console(library);
        this.comparison = new Comparison({ plain, show: (block, place) => this.showPlace(block, place) });
        this.workshop = new Workshop(library, { lent: () => this.board, onmade: (made) => this.useMade(made) });
        this.listen();
    }

    listen() {
        const kinds = kindsOf(this.library), press = (id, work) => byId(id).addEventListener("click", work);
        fill(byId("kind"), kinds.map((kind) => element("option", { value: kind }, KINDS[kind].name)));
        byId("kind").addEventListener("change", (event) => this.use({ kind: event.target.value }));
        for (const place of ["set", "high", "serial"])
            byId(`choose-${place}`).addEventListener("change", (event) => this.takeChosen(event.target, place));
        press("no-serial", () => this.use({ serial: NO_FILE }));
        for (const [place, name] of [["set", "set.bin"], ["high", "high.bin"], ["serial", "unit.bin"]])
            press(`save-${place}`, () => this.saveBlock(place, name));
        press("save-c", () => save("device.h", this.inC()));
        press("undo", () => { this.lent.undo(); this.lend(); });
        press("redo", () => { this.lent.redo(); this.lend(); });
        press("forget", () => { forget(); location.reload(); });
        fill(byId("examples"), FACTS.examples.map((example) => button(example.name, () => this.useExample(example))));
        for (const tab of document.querySelectorAll("[role=tab]"))
            tab.addEventListener("click", () => this.openPanel(tab.id));
        document.querySelector("[role=tablist]").addEventListener("keydown", (event) => this.turnPanel(event));
        this.listenForDrops();
    }

    // ---- what is lent
    // Lends something else, beside what stays.
    use(change) {
        this.lent.note(change);
        this.lend();
    }

    lend() {
        const shown = performance.now(), { kind, sets, serial } = this.lent;
        this.board = new Board(this.library, kind, sets.map(({ bytes }) => bytes), serial.bytes);
        const judged = judge(this.library, this.board), show = (block, place) => this.showPlace(block, place);
        keep("lent", this.lent.kept());
        this.showLent();
        showVerdict(byId("verdict"), this.board, { ...judged, name: this.lent.name }, { show, useAs: (change) => this.use(change(this.lent)) });
        this.inspection.show(this.board, judged);
        this.enumeration.lend(this.board);
        this.console.lend(this.board);
        this.comparison.lend(this.board, sets.map(({ name }) => name || "a set"));
        this.workshop.lend(this.board);
        this.lookAtPanel();
        this.took = performance.now() - shown;
    }

    showLent() {
        const { kind, set, high, serial } = this.lent;
        const words = ({ name, bytes }) => (bytes.length > 0 || name ? `${name || "a set"}, ${countWords(bytes.length, "byte")}` : "none");
        byId("kind").value = kind;
        byId("set-title").textContent = KINDS[kind].sets[0].replace(/^./, (letter) => letter.toUpperCase());
        byId("set-name").textContent = words(set);
        byId("high-name").textContent = words(high);
        byId("serial-name").textContent = serial.bytes.length > 0 ? words(serial) : "empty";
        byId("high-slot").hidden = kind !== "two";
        byId("save-set").disabled = set.bytes.length === 0;
        byId("save-high").disabled = high.bytes.length === 0;
        byId("save-c").disabled = this.board.sets.some((bytes) => bytes.length === 0);
        byId("save-serial").disabled = byId("no-serial").disabled = serial.bytes.length === 0;
        byId("undo").disabled = !this.lent.canUndo;
        byId("redo").disabled = !this.lent.canRedo;
    }

    saveBlock(place, usual) {
        const { name, bytes } = this.lent[place];
        save(place !== "serial" && name.endsWith(".bin") ? name : usual, bytes);
    }

    // What is lent as C arrays, with what the library says of it.
    inC() {
        const { number, kind } = this.board;
        return cOf(this.board, `${this.lent.name}: ${KINDS[kind].open} ${number === 0 ? "accepts it" : `REFUSES it with ${number}`}.`);
    }

    useMade({ kind = "one", sets, serial, name }) {
        const [set, high] = sets.map((bytes, at) => ({ name: sets.length > 1 ? `${name}, ${KINDS.two.sets[at]}` : name, bytes }));
        this.use({ kind, set, ...(high && { high }), serial: { name: "unit.bin", bytes: serial } });
        this.openPanel("tab-set");
    }

    useExample({ name, text, set, serial }) {
        const made = text ? setOfText(this.library, text) : { sets: [fromBase64(set)], serial: fromBase64(serial) };
        this.use({ kind: "one", set: { name, bytes: made.sets[0] }, serial: { name, bytes: made.serial } });
    }

    changeByte(block, place, byte) {
        const which = block === this.board.sets.length ? "serial" : ["set", "high"][block], old = this.lent[which], bytes = old.bytes.slice();
        bytes[place] = byte;
        this.use({ [which]: { name: old.name.endsWith(", changed") ? old.name : `${old.name}, changed`, bytes } });
        this.inspection.showBlock(block);
        this.inspection.choosePlace(place);
    }

    showPlace(block, place) {
        this.openPanel("tab-set");
        this.inspection.lead(block, place);
    }

    // ---- files
    async takeChosen(input, place) {
        try {
            if (input.files.length > 0)
                this.use({ [place]: plain(await readFile(input.files[0])) });
        } catch (error) {
            showComplaint(byId("verdict"), `Not read: ${error.message}`);
        }
        input.value = "";
    }

    listenForDrops() {
        const dropping = (event) => {
            event.preventDefault();
            document.body.classList.toggle("dropping", event.type === "dragover");
        };
        for (const type of ["dragover", "dragleave", "dragend"])
            document.addEventListener(type, dropping);
        document.addEventListener("drop", (event) => {
            dropping(event);
            this.takeDropped([...event.dataTransfer.files]).catch((error) => showComplaint(byId("verdict"), `Not read: ${error.message}`));
        });
    }

    // Dropped files: each goes where it looks like belonging. A set alone comes with an empty serial block.
    async takeDropped(files) {
        const read = await Promise.all(files.map(readFile)), kinds = read.map(({ name, bytes }) => guess(name, bytes));
        const sets = read.filter((_, at) => kinds[at] === "set" || kinds[at] === "hexadecimal").map(plain);
        const serials = read.filter((_, at) => kinds[at] === "serial"), other = kinds.findIndex((kind) => ["text", "dump", "pieces"].includes(kind));
        const change = { ...(sets.length > 0 && { serial: NO_FILE, ...this.setsDropped(sets) }), ...(serials.length > 0 && { serial: serials[0] }) };
        if (sets.length + serials.length > 0)
            this.use(change);
        if (other >= 0)
            this.takeToWorkshop(kinds[other], read[other]);
        else if (sets.length > 0 && this.panel === "tab-make")
            this.openPanel("tab-set");
        if (sets.length > 1 && this.lent.kind !== "two")
            this.openPanel("tab-compare");
    }

    // Two sets are a pair where both have types 6 and 7, or the kind says so: the high-speed one is told by opening, by its name, and else is the second.
    // Other two stand side by side.
    setsDropped(sets) {
        if (sets.length > 1 && kindsOf(this.library).includes("two"))
            return this.pairDropped(sets.slice(0, 2));
        return this.lent.kind === "two" && isHighByName(sets[0]) ? { high: sets[0] } : { set: sets[0] };
    }

    pairDropped(sets) {
        const orders = [sets, [...sets].reverse()], open = (order) => this.library.open("hk_two_open", order.map(({ bytes }) => bytes), NO_FILE.bytes).number;
        const opens = (order) => GO_TOGETHER.includes(open(order));
        const [set, high] = orders.find(opens) ?? orders[isHighByName(sets[0]) && !isHighByName(sets[1]) ? 1 : 0];
        if (this.lent.kind === "two" || sets.every(({ bytes }) => isOfPair(bytes)))
            return { kind: "two", set, high };
        this.comparison.compareWith(sets[1]);
        return { set: sets[0] };
    }

    takeToWorkshop(kind, { name, bytes }) {
        this.openPanel("tab-make");
        if (kind === "text")
            this.workshop.setText(textOfFile(bytes));
        else if (kind === "dump")
            this.workshop.useDump(bytes, name);
        else
            this.workshop.usePieces(bytes, name);
    }

    // ---- panels
    openPanel(id) {
        for (const tab of document.querySelectorAll("[role=tab]")) {
            const isOpen = tab.id === id;
            tab.setAttribute("aria-selected", isOpen);
            tab.tabIndex = isOpen ? 0 : -1;
            byId(tab.getAttribute("aria-controls")).hidden = !isOpen;
        }
        this.panel = id;
        keep("panel", id);
        this.lookAtPanel();
    }

    lookAtPanel() {
        const looks = { "tab-enumeration": this.enumeration, "tab-compare": this.comparison, "tab-make": this.workshop };
        document.body.classList.toggle("making", this.panel === "tab-make");
        looks[this.panel]?.look();
    }

    turnPanel(event) {
        const tabs = [...document.querySelectorAll("[role=tab]")], at = tabs.findIndex((tab) => tab.id === this.panel);
        const next = { ArrowRight: (at + 1) % tabs.length, ArrowLeft: (at + tabs.length - 1) % tabs.length, Home: 0, End: tabs.length - 1 }[event.key];
        if (next === undefined)
            return;
        event.preventDefault();
        this.openPanel(tabs[next].id);
        tabs[next].focus();
    }
}

async function show() {
    const library = await Library.load(fromBase64(byId("module").textContent.trim())), page = new Page(library), { panel } = recall();
    if (page.lent.isEmpty)
        page.useExample(FACTS.examples[0]);
    else
        page.lend();
    page.openPanel(byId(panel) ? panel : "tab-set");
    fill(byId("module-words"), `${FACTS.module.bytes} bytes of WebAssembly, SHA-256 ${FACTS.module.sum}`);
    globalThis.heideklonk = { library, page, listing };
    document.body.dataset.ready = "yes";
}

export const start = () => show().catch((error) => showComplaint(byId("verdict"), `This browser does not run the page: ${error.message}`));
