// The panel of requests: events of one's own on a board, one at a time, with the record between them.
import { byId, button, element, fill } from "./element.js";
import { EVENT } from "./library.js";
import { Board, KINDS } from "./board.js";
import { happening } from "./enumeration.js";
import { endpointsWords } from "./host.js";
import { Unread, readEvent } from "./requests.js";
import { recordFields, recordWords } from "./record.js";
import { FACTS } from "./facts.js";
import { TYPE } from "./descriptors.js";
import { entriesOf } from "./set.js";
import { Transfers, isPacketWord, orderWords, pipeWords, readCall, readPipe } from "./packets.js";
import { countWords, spaced } from "./bytes.js";

const SUGGESTED = [
    "GET_DESCRIPTOR device", "GET_DESCRIPTOR configuration 0 wLength 9", "GET_DESCRIPTOR string 1 0x0409", "SET_ADDRESS 5", "SET_CONFIGURATION 1", "GET_CONFIGURATION",
    "GET_STATUS device", "SET_INTERFACE 0 1", "GET_INTERFACE 0", "SET_FEATURE ENDPOINT_HALT endpoint 0x81", "CLEAR_FEATURE ENDPOINT_HALT endpoint 0x81",
    "GET_STATUS endpoint 0x81", "SET_FEATURE DEVICE_REMOTE_WAKEUP device", "packet passed 0x81", "halt 0x81", "power own", "suspend", "wake", "resume",
    "80 06 00 01 00 00 12 00", "status end", "reset", "open", "pipe", "in", "out 0", "out 8", "reply 01 02 03", "room 64", "accept", "refuse",
];

export class Console {
    constructor(library) {
        this.library = library;
        this.earlier = [];
        this.at = 0;
        fill(byId("suggested"), SUGGESTED.map((value) => element("option", { value })));
        byId("request-form").addEventListener("submit", (event) => {
            event.preventDefault();
            this.say(byId("request").value);
        });
        byId("request").addEventListener("keydown", (event) => this.key(event));
    }

    lend(board) {
        const usable = board.number === 0 && KINDS[board.kind].answers;
        this.board = new Board(this.library, board.kind, board.sets, board.serial);
        this.transfers = null;
        fill(byId("log"));
        fill(byId("quick"), this.often().map((line) => button(line, () => this.say(line))), button("power on", () => this.say("open")));
        byId("requests-note").textContent = usable ? "" : `${board.kind === "super" ? "This is a SuperSpeed set" : "The set is refused"}, so every event gets 7.`;
        byId("request-form").hidden = byId("quick").hidden = board.kind === "super";
        this.showRecord();
    }

    // What is asked often; the configuration is the first of the set.
    often() {
        const set = this.board.sets[0], entry = entriesOf(set).find(({ type }) => type === TYPE.CONFIGURATION), value = set[entry?.offset + 5] ?? 1;
        return ["GET_DESCRIPTOR device", "SET_ADDRESS 5", "status end", `SET_CONFIGURATION ${value}`, "reset", ...(this.board.kind === "two" ? ["reset to high"] : [])];
    }

    // Up and down bring back what was said before.
    key(event) {
        const step = { ArrowUp: -1, ArrowDown: 1 }[event.key], at = this.at + step;
        if (step === undefined || at < 0 || at > this.earlier.length)
            return;
        event.preventDefault();
        this.at = at;
        event.target.value = this.earlier[at] ?? "";
    }

    say(line) {
        const text = line.trim();
        if (text === "")
            return;
        this.earlier = [...this.earlier.filter((one) => one !== text), text];
        this.at = this.earlier.length;
        try {
            this.log(...this.answer(text));
            byId("request").value = "";
        } catch (error) {
            if (!(error instanceof Unread))
                throw error;
            this.log(element("div", { class: "event" }, text), element("div", { class: "answer stalled" }, `not asked: ${error.message}`));
        }
        this.showRecord();
    }

    // `pipe` says it once: from then on setups and resets go packet by packet.
    answer(text) {
        if (text === "open")
            return this.open();
        if (/^pipe( |$)/.test(text))
            return this.lendPipe(readPipe(text));
        if (!this.transfers && isPacketWord(text))
            throw new Unread(`\`${text.split(" ")[0]}\` is for transfers packet by packet: say \`pipe\` before`);
        const call = this.transfers && readCall(text);
        return call ? this.step(text, this.transfers.play(call)) : this.happen(readEvent(text));
    }

    lendPipe(pipe) {
        this.transfers = new Transfers(this.board, pipe);
        return [element("div", { class: "event" }, "packet by packet, from here on"), this.row("pipe", pipeWords(pipe), pipe)];
    }

    row(name, words, bytes) {
        return element("div", { class: "record" }, element("span", { class: "name" }, name), `${words} `, element("code", {}, spaced(bytes)));
    }

    // What the host got, the answer, the order with its packet, and the records where they changed.
    step(text, { host, taken, heard }) {
        const got = host && element("div", { class: host === "ACK" ? "answer" : "answer stalled" }, `the host gets ${taken ? countWords(taken.length, "byte") : host}`, taken && element("code", {}, ` ${spaced(taken)}`));
        if (!heard)
            return [element("div", { class: "event" }, text), got];
        const { name, remark } = FACTS.numbers[heard.number] ?? { name: "", remark: "" };
        return [
            element("div", { class: "event" }, text),
            got,
            element("div", { class: heard.number === 0 ? "answer" : "answer stalled" }, `${heard.number} ${name}${heard.number === 0 ? "" : `: ${remark}`}`),
            this.row("order", orderWords(heard), heard.packet),
            heard.pipeChanged && this.row("pipe", pipeWords(heard.pipe), heard.pipe),
            heard.recordChanged && element("div", { class: "record" }, element("span", { class: "name" }, "record"), recordWords(heard.record)),
        ];
    }

    open() {
        this.transfers &&= new Transfers(this.board, readPipe("pipe"));
        const number = this.board.open(), [kind, words] = number === 0 ? ["answer", "done"] : ["answer stalled", `refused with ${number}`];
        return [element("div", { class: "event" }, "power on"), element("div", { class: kind }, words)];
    }

    happen(event) {
        const answer = this.board.happen(event), says = [happening({ event, answer, status: null, endpoints: null })].flat();
        const waits = event.event === EVENT.SETUP && answer.number === 0, end = button("status end", () => this.say("status end"), { class: "link" });
        return [...says, waits && element("div", { class: "quiet" }, "the status stage has not ended: ", end)];
    }

    log(...children) {
        const entry = element("li", {}, ...children.flat());
        byId("log").append(entry);
        byId("log").scrollTop = byId("log").scrollHeight;
    }

    showRecord() {
        const { record } = this.board, endpoints = this.board.number === 0 && KINDS[this.board.kind].answers ? endpointsWords(this.board.endpoints()) : "none";
        const rows = recordFields(record).map(({ name, start, length, figures, words }) => element("tr", {},
            element("th", { scope: "row" }, name),
            element("td", { class: "range" }, length === 1 ? `${start}` : `${start}–${start + length - 1}`),
            element("td", { class: "figures" }, figures),
            element("td", {}, words)));
        fill(byId("record"), element("table", {}, element("caption", {}, "The record"), element("tbody", {}, rows)),
            element("p", {}, element("code", {}, spaced(record))), element("p", {}, `Endpoints to open: ${endpoints}`));
    }
}
