// The panel of the enumeration: the host's steps, as many as one likes to see.
import { byId, element, fill, save } from "./element.js";
import { Host, answerWords, dataLines, endpointsWords, stepLines } from "./host.js";
import { EVENT } from "./library.js";
import { Board, KINDS } from "./board.js";
import { eventWords } from "./requests.js";
import { recordWords } from "./record.js";
import { alike, countWords, spaced } from "./bytes.js";

const AT_ONCE = 40, MOST_ROWS = 80;
const ANOTHER_BOARD = "Another vendor's board answers from SuperSpeed sets: here they are checked and shown.";
const REFUSED = "A refused set is never used: the library answers every event with 7.";

const dataRow = ({ bytes, words }) => element("div", { class: "datum" }, element("code", {}, spaced(bytes)), element("span", {}, words));

// The data of an answer: a row for each descriptor; those of a long one when they are asked for.
function dataRows(event, answer) {
    const lines = dataLines(event, answer), rest = lines.length > MOST_ROWS ? lines.splice(MOST_ROWS / 2) : [];
    const opened = ({ currentTarget }) => currentTarget.children.length === 1 && currentTarget.append(...rest.map(dataRow));
    const more = element("details", { class: "rest", ontoggle: opened }, element("summary", {}, `${countWords(rest.length, "descriptor")} more`));
    return [lines.map(dataRow), rest.length > 0 && more];
}

const recordRow = (name, words) => element("div", { class: "record" }, element("span", { class: "name" }, name), words);

// An event and its answer, for the enumeration and for the console.
export function happening({ event, answer, status, endpoints }) {
    const says = event.event === EVENT.SETUP || event.event === EVENT.WAKE || answer.number !== 0;
    const records = [[answer, "record"], [status, "record after the status stage"]].filter(([one]) => one && !alike(one.before, one.record));
    return [
        element("div", { class: "event" }, element("span", {}, eventWords(event)), event.event === EVENT.SETUP && element("code", {}, spaced(event.setup))),
        says && element("div", { class: answer.number === 0 ? "answer" : "answer stalled" }, answerWords(event, answer)),
        dataRows(event, answer),
        endpoints && recordRow("open", endpointsWords(endpoints)),
        records.map(([one, name]) => recordRow(name, recordWords(one.record))),
    ];
}

export class Enumeration {
    constructor(library) {
        this.library = library;
        byId("next").addEventListener("click", () => this.take(1));
        byId("more").addEventListener("click", () => this.take(AT_ONCE));
        byId("end").addEventListener("click", () => this.take(Infinity));
        byId("again").addEventListener("click", () => this.start(0));
        byId("speed").addEventListener("change", () => this.start(AT_ONCE));
        byId("transcript").addEventListener("click", () => save("transcript.txt", this.transcript()));
    }

    // The board as it is lent; nothing is asked before the panel is looked at.
    lend(board) {
        this.board = board;
        this.started = false;
        byId("speeds").hidden = board.kind !== "two";
    }

    look() {
        if (!this.started)
            this.start(AT_ONCE);
    }

    start(count) {
        const { board } = this, usable = board.number === 0 && KINDS[board.kind].answers;
        this.started = true;
        this.steps = [];
        this.list = byId("steps");
        fill(this.list);
        for (const id of ["next", "more", "end", "again", "transcript"])
            byId(id).disabled = !usable;
        byId("steps-note").textContent = usable ? "" : board.number === 0 ? ANOTHER_BOARD : REFUSED;
        if (!usable)
            return;
        const copy = new Board(this.library, board.kind, board.sets, board.serial);
        this.host = new Host(copy, Number(byId("speed").value) * (board.kind === "two"));
        this.left = this.host.enumerate();
        this.add({ heading: "Power on", record: copy.record });
        this.take(count);
    }

    take(count) {
        const more = document.createDocumentFragment();
        let taken = 0;
        for (; taken < count; ) {
            const { value, done } = this.left.next();
            if (done)
                break;
            this.add(value, more);
            taken += value.heading ? 0 : 1;
        }
        this.list.append(more);
        const ended = taken < count;
        for (const id of ["next", "more", "end"])
            byId(id).disabled = ended;
        const shown = this.steps.filter((step) => step.event).length;
        byId("steps-note").textContent = `${countWords(shown, "step")}${ended ? "; the enumeration is over" : ""}`;
    }

    add(step, place = this.list) {
        this.steps.push(step);
        if (step.heading)
            place.append(element("li", { class: "heading" }, element("h3", {}, step.heading), step.record && recordRow("record", recordWords(step.record))));
        else
            place.append(element("li", {}, happening(step)));
    }

    // The steps seen so far, as the bench host prints them.
    transcript() {
        const lines = this.steps.flatMap((step) => (step.record ? ["power on, the set is accepted", `  record: ${recordWords(step.record)}`] : stepLines(step)));
        return `${lines.join("\n")}\n`;
    }
}
