// The texts that sets are made of: typed in, started from one that is there, undone, and kept over a reload.
import { FACTS } from "./facts.js";
import { byId, button, element, fill, save } from "./element.js";
import { History } from "./history.js";
import { keep, recall } from "./memory.js";
import { pairOfTexts, setOfText } from "./making.js";
import { KINDS, kindsOf } from "./board.js";
import { highSpeedText } from "./highspeed.js";

const PAUSE = 150; // milliseconds after the last letter
const NAMES = { one: "this text", two: "these two texts", super: "this SuperSpeed text" };
const LABELS = { one: "Text of the set, full speed", two: "Text of the full-speed set", super: "Text of the SuperSpeed set" };

// The text that is there first of a kind: the one set's, the pair's two, the SuperSpeed set's.
const firstText = (kind) => FACTS.texts.find((one) => one.kind === kind) ?? { text: "", high: "" };
const FIRST = { kind: "one", one: firstText("one").text, two: firstText("two").text, high: firstText("two").high, super: firstText("super").text };

const isState = (state) => state !== null && Object.keys(FIRST).every((key) => typeof state[key] === "string") && state.kind in KINDS;

export class Texts {
    // `onwritten` is told what came of the texts, and which they are.
    constructor(library, { onwritten }) {
        Object.assign(this, { library, onwritten });
        const kept = recall().texts, good = Array.isArray(kept?.states) && kept.states.length > 0 && kept.states.every(isState);
        this.history = new History(good ? kept : { states: [FIRST] });
        this.fields = { text: byId("text"), high: byId("high-text") };
        const kinds = kindsOf(library).filter((kind) => kind !== "super" || library.has("hk_super_write"));
        fill(byId("make-kind"), kinds.map((kind) => element("option", { value: kind }, KINDS[kind].name)));
        byId("make-kinds").hidden = kinds.length < 2;
        this.listen();
        this.show();
    }

    listen() {
        for (const field of Object.values(this.fields)) {
            field.addEventListener("input", () => this.later());
            field.addEventListener("keydown", (event) => this.key(event));
        }
        byId("make-kind").addEventListener("change", (event) => this.change({ ...this.typed(), kind: event.target.value }));
        byId("undo-text").addEventListener("click", () => this.go("undo"));
        byId("redo-text").addEventListener("click", () => this.go("redo"));
        byId("save-text").addEventListener("click", () => this.save());
    }

    get kind() {
        return this.history.state.kind;
    }

    // What stands in the fields, as a state.
    typed() {
        const { state } = this.history, { text, high } = this.fields;
        return { ...state, [state.kind]: text.value, ...(state.kind === "two" && { high: high.value }) };
    }

    // While a person types, the set is written a moment after the last letter.
    later() {
        clearTimeout(this.waiting);
        this.waiting = setTimeout(() => this.note(), PAUSE);
    }

    // What was typed is a state of its own.
    note() {
        clearTimeout(this.waiting);
        const typed = this.typed();
        if (JSON.stringify(typed) !== JSON.stringify(this.history.state))
            this.history.note(typed);
        this.write();
    }

    change(state) {
        this.note();
        this.history.note(state);
        this.show();
        this.write();
    }

    // Another text in the place of the one that is asked for.
    set(text, high) {
        this.setAll(this.kind, text, high);
    }

    // Texts of a kind that may be another one.
    setAll(kind, text, high) {
        this.change({ ...this.typed(), kind, [kind]: text, ...(high !== undefined && { high }) });
    }

    // The pair of the text for one set: at high speed with that speed's sizes and intervals.
    pairOfOne() {
        const { one } = this.typed();
        this.setAll("two", one, highSpeedText(one));
    }

    key(event) {
        const letter = event.key.toLowerCase();
        if (!(event.ctrlKey || event.metaKey) || event.altKey || !["z", "y"].includes(letter))
            return;
        event.preventDefault();
        this.go(letter === "y" || event.shiftKey ? "redo" : "undo");
    }

    // Back to the text before, or forward again.
    go(way) {
        this.note();
        const places = Object.values(this.fields).map(({ selectionStart }) => selectionStart);
        this.history[way]();
        this.show();
        Object.values(this.fields).forEach((field, at) => field.setSelectionRange(places[at], places[at]));
        this.write();
    }

    save() {
        const state = this.typed();
        save(state.kind === "two" ? "full.txt" : "set.txt", state[state.kind]);
        if (state.kind === "two")
            save("high.txt", state.high);
    }

    show() {
        const { state } = this.history, { text, high } = this.fields;
        byId("make-kind").value = state.kind;
        text.value = state[state.kind];
        high.value = state.high;
        byId("text-label").textContent = LABELS[state.kind];
        byId("high-form").hidden = state.kind !== "two";
        const starts = FACTS.texts.filter(({ kind }) => kind === state.kind);
        const ofOne = state.kind === "two" && button("The text for one set", () => this.pairOfOne());
        fill(byId("texts"), starts.map((one) => button(one.name, () => this.set(one.text, one.high))), ofOne);
    }

    look() {
        if (!this.looked)
            this.write();
    }

    write() {
        const { state } = this.history, { library } = this;
        this.looked = true;
        byId("undo-text").disabled = !this.history.canUndo;
        byId("redo-text").disabled = !this.history.canRedo;
        keep("texts", this.history.kept());
        const made = state.kind === "two" ? pairOfTexts(library, state.two, state.high) : setOfText(library, state[state.kind], state.kind);
        this.onwritten(made, NAMES[state.kind]);
    }

    // A button that leads to a line of a text; `which` is 1 for the high-speed one.
    lead(line, which = 0) {
        const field = which === 1 ? this.fields.high : this.fields.text;
        return button(`Line ${line.number}: ${line.text}`, () => chooseLine(field, line.number), { class: "link to-line" });
    }
}

// Chooses a line in a field, and brings it into view.
function chooseLine(field, number) {
    const lines = field.value.split("\n"), start = lines.slice(0, number - 1).reduce((sum, { length }) => sum + length + 1, 0);
    field.focus();
    field.setSelectionRange(start, start + (lines[number - 1]?.length ?? 0));
    field.scrollTop = Math.max(0, (field.scrollHeight * (number - 1)) / lines.length - field.clientHeight / 2);
}
