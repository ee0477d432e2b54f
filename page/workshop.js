// The panel where sets are made: of texts, of pieces, of a descriptors file; trimmed; and given back as a text or a descriptors file.
import { FACTS } from "./facts.js";
import { byId, button, element, fill, save } from "./element.js";
import { Texts } from "./texts.js";
import { faultRows } from "./faultrows.js";
import { numberWords } from "./host.js";
import { ruleOf } from "./rules.js";
import { limitsOf } from "./faults.js";
import { likenessOf } from "./likeness.js";
import { setOfDump, setOfPieces, dumpOfSet } from "./making.js";
import { withoutMirrors } from "./pairs.js";
import { Mistake, textOf } from "./text.js";
import { readFile, textOfFile } from "./files.js";
import { cOf } from "./clanguage.js";
import { KINDS } from "./board.js";
import { countWords } from "./bytes.js";

const accepted = (words) => element("p", { class: "outcome accepted" }, words);
const refused = (words) => element("p", { class: "outcome refused" }, words);
const refusal = (number, what) => [refused(`Refused with ${number}: ${what}.`), element("p", {}, `Number ${number}: ${numberWords(number)}.`)];
const saveButton = (file, content) => button(`Save ${file}`, () => save(file, content), { "data-file": file });
const FILES = { one: ["set.bin"], two: ["full.bin", "high.bin"], super: ["set.bin"] };

export class Workshop {
    constructor(library, { onmade, lent }) {
        Object.assign(this, { library, onmade, lent });
        this.texts = new Texts(library, { onwritten: (made, name) => this.tellOfText(made, name) });
        fill(byId("text-help"), FACTS.textHelp);
        byId("choose-text").addEventListener("change", (event) => this.take(event.target, ({ bytes }) => this.setText(textOfFile(bytes))));
        byId("choose-pieces").addEventListener("change", (event) => this.take(event.target, ({ bytes, name }) => this.usePieces(bytes, name)));
        byId("choose-dump").addEventListener("change", (event) => this.take(event.target, ({ bytes, name }) => this.useDump(bytes, name)));
        byId("trim").addEventListener("click", () => this.trim());
        byId("to-text").addEventListener("click", () => this.toText(false));
        byId("to-words").addEventListener("click", () => this.toText(true));
        byId("to-dump").addEventListener("click", () => this.toDump());
    }

    async take(input, use) {
        if (input.files.length > 0)
            use(await readFile(input.files[0]));
        input.value = "";
    }

    setText(text) {
        this.texts.set(text);
    }

    look() {
        this.texts.look();
    }

    usePieces(bytes, name) {
        this.tell(byId("of-files"), setOfPieces(this.library, bytes, this.lent().serial, this.lent().kind === "super" ? "super" : "one"), name);
    }

    useDump(bytes, name) {
        this.tell(byId("of-files"), setOfDump(this.library, bytes), name);
    }

    // What came of the text: below it all of it, and above it, where a person who types looks, in a few words.
    tellOfText(made, name) {
        byId("written-brief").className = `outcome ${made.number === 0 ? "accepted" : "refused"}`;
        byId("written-brief").textContent = briefly(made);
        this.tell(byId("written"), made, name);
    }

    // What came of it, and of what: the sets, to be saved and looked at, or why there are none.
    tell(place, made, name) {
        place.className = `made verdict ${made.number === 0 ? "accepted" : "refused"}`;
        if (made.mistake)
            return fill(place, refused(`Not read: ${name}. ${made.mistake}`), made.line && this.texts.lead(made.line, made.text));
        if (made.number !== 0)
            return fill(place, this.refusedRows(made, name));
        const lengths = made.sets.map((set, at) => `${FILES[made.kind][at]}: ${countWords(set.length, "byte")}`).join(", ");
        return fill(place, accepted(`Accepted: ${name}. Wrote ${lengths}.`), this.saveButtons(made, name));
    }

    refusedRows(made, name) {
        const { number, reason } = made;
        return [
            reason?.number ? refused(`Refused with ${number}: ${name}.`) : refusal(number, name),
            reason && this.reasonRows(made),
            reason?.lent && this.lookButton(made, reason.lent.sets, `${name}, refused`),
        ];
    }

    // Why the opener would refuse what was made: each fault, and the line or the piece that is to blame.
    reasonRows({ reason, serial, number, kind }) {
        if (reason.words)
            return element("p", {}, reason.words);
        const like = kind === "one" ? likenessOf(this.library, ...reason.lent.sets, serial) : null;
        const line = (fault) => (fault.line ? this.texts.lead(fault.line, fault.text) : pieceWords(fault));
        return [
            element("p", {}, `${number === reason.number ? "Number" : "The opener would refuse the set with"} ${reason.number}: ${numberWords(reason.number)}.`),
            like && element("p", { class: "hinted" }, element("strong", {}, `${like.words.replace(/^./, (letter) => letter.toUpperCase())}.`)),
            faultRows(reason.faults, { lent: reason.lent, line }),
        ];
    }

    lookButton({ serial, kind }, sets, name) {
        const words = sets.length > 1 ? "Look at them" : name.endsWith("refused") ? "Look at the refused set" : "Look at it";
        return button(words, () => this.onmade({ kind, sets, serial, name }));
    }

    saveButtons(made, name) {
        const { kind, sets, serial, pieces } = made, files = FILES[kind];
        return element("div", { class: "buttons" },
            sets.map((set, at) => saveButton(files[at], set)),
            saveButton("unit.bin", serial),
            pieces && saveButton("pieces.bin", pieces),
            button("Save as C", () => save("device.h", cOf(made, `Of ${name}: ${KINDS[kind].open} accepts it.`)), { "data-file": "device.h" }),
            this.lookButton(made, sets, name));
    }

    // ---- the set that is lent
    trim() {
        const { sets: [set], serial } = this.lent(), { number, written } = this.library.trim(set, serial);
        if (number !== 0)
            return fill(byId("of-lent"), refusal(number, "the set above"));
        const strings = countWords(set[2] - written[2], "string"), bytes = countWords(set.length - written.length, "byte"), left = countWords(written.length, "byte");
        const words = set.length === written.length ? "Nothing to trim: every string is named." : `Trimmed: ${strings} less, ${bytes} less, ${left} left.`;
        return fill(byId("of-lent"), accepted(words),
            element("p", { class: "quiet" }, "A string that only a class descriptor or your own host program names is dropped too: keep a copy of the set."),
            element("div", { class: "buttons" },
                saveButton("trimmed.bin", written),
                button("Look at it", () => this.onmade({ sets: [written], serial, name: "trimmed set" }))));
    }

    toText(inWords) {
        const { kind, sets, serial } = this.lent();
        try {
            const texts = kind === "two" ? sets.map((set) => textOf(withoutMirrors(set), serial, inWords)) : [textOf(sets[0], serial, inWords)];
            this.texts.setAll(kind, ...texts);
            const files = kind === "two" ? ["full.txt", "high.txt"] : ["set.txt"];
            fill(byId("of-lent"), accepted(texts.length > 1 ? "Their texts stand above." : "Its text stands above."),
                element("div", { class: "buttons" }, texts.map((text, at) => saveButton(files[at], text))));
        } catch (error) {
            if (!(error instanceof Mistake))
                throw error;
            fill(byId("of-lent"), refused(error.message));
        }
    }

    toDump() {
        const { sets: [set], serial } = this.lent(), { number, written } = dumpOfSet(this.library, set, serial);
        if (number !== 0)
            return fill(byId("of-lent"), refusal(number, "the set above"));
        const words = `A descriptors file of ${countWords(written.length, "byte")}, without the strings.`;
        return fill(byId("of-lent"), accepted(words), saveButton("descriptors", written));
    }

    // A new set is lent: what was told of the old one goes.
    lend(board) {
        fill(byId("of-lent"));
        byId("trim").hidden = byId("to-dump").hidden = board.kind !== "one";
        const text = board.sets.length > 1 ? "Texts of the sets" : "Text of the set";
        [byId("to-text").textContent, byId("to-words").textContent] = [text, `${text}, in words`];
    }
}

function briefly({ mistake, number, sets, reason }) {
    if (mistake)
        return `Not read: ${mistake}`;
    if (number === 0)
        return `Accepted, ${sets.map(({ length }) => countWords(length, "byte")).join(" and ")}`;
    const [fault, ...others] = reason?.faults ?? [];
    const text = sets.length > 1 ? `${["full", "high"][fault?.text]}-speed text, ` : "", where = fault?.line ? `${text}line ${fault.line.number}, ` : "";
    const more = others.length > 0 ? `, and ${countWords(others.length, "fault")} more` : "";
    return fault ? `Refused: ${where}rule ${fault.rule}, ${ruleOf(fault.rule, limitsOf(reason.lent, fault.block)).rule}${more}` : `Refused with ${number}`;
}

const pieceWords = ({ piece, inDump }) => (piece && inDump === undefined ? `the piece of type ${piece.type}, index ${piece.index}` : "");
