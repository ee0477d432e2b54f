// What the library says of what is lent, and what that is: accepted, or refused with its number, and with rule, set and byte.
import { button, element, fill } from "./element.js";
import { GROUPS, rulesOfGroup } from "./rules.js";
import { KINDS, SERIAL } from "./board.js";
import { limitsOf } from "./faults.js";
import { faultsOf } from "./mending.js";
import { faultRows } from "./faultrows.js";
import { likenessOf, singleLikeness } from "./likeness.js";
import { numberWords } from "./host.js";
import { shapeOf, treeOf } from "./set.js";
import { guess } from "./files.js";
import { countWords } from "./bytes.js";

const STUMBLED = "The library accepts this set; this page, which reads it for show alone, stumbles:";
const NOTICED = "What this page noticed while reading it for show (the library decides):";
// What there is to say of a board's sets: the number, the set at fault, and for a refusal the faults, the first of them the library's.
export function judge(library, board) {
    const { number, kind } = board, judged = { number, kind, set: 0, faults: [] };
    if (number === 0 || !library.has(KINDS[kind].explain))
        return judged;
    const faults = faultsOf(library, board), [first] = faults;
    return { ...judged, faults, set: first && first.block !== SERIAL ? first.block : 0, explained: first?.number ?? 0 };
}

const GUESSES = {
    hexadecimal: "This file looks like hexadecimal text, not like a set. Drop it anywhere on the page, and its bytes are read.",
    text: "This file looks like the text of a set. Open it under “Make a set”.",
    dump: "This file looks like the descriptors file of a plugged-in device. Open it under “Make a set”.",
    serial: "This file looks like a serial block rather than a set.",
    pieces: "This file looks like pieces for the set writer. Open it under “Make a set”.",
};

const sentence = (words) => `${words.replace(/^./, (letter) => letter.toUpperCase())}.`;

// What a refused set looks like rather than one of this kind, and how it is lent as that.
function takenFor({ library, kind, sets, serial }, at) {
    if (kind !== "one") {
        const words = singleLikeness(library, sets[at], serial), change = (lent) => ({ kind: "one", set: at === 1 ? lent.high : lent.set });
        return words && { words, name: "Take it for one set, full speed", change };
    }
    const like = likenessOf(library, sets[0], serial);
    return like && {
        words: like.words,
        name: `Take it for ${like.kind === "super" ? "a SuperSpeed set" : `the ${KINDS.two.sets[like.at]}`}`,
        change: (lent) => ({ kind: like.kind, ...(like.at === 1 && { set: lent.high, high: lent.set }) }),
    };
}

function hint(board, judged, useAs) {
    const set = board.sets[judged.set];
    if (board.number === 0 || set.length === 0)
        return null;
    const taken = takenFor(board, judged.set), guessed = GUESSES[guess("", set)];
    if (taken)
        return element("p", { class: "hinted" }, element("strong", {}, sentence(taken.words)), " ", button(taken.name, () => useAs(taken.change), { id: "take-for" }));
    return guessed && element("p", { class: "hinted" }, element("strong", {}, guessed));
}

function acceptedWords(board) {
    return board.sets.map((set, at) => {
        const shape = shapeOf(set).map(([count, noun]) => countWords(count, noun)).join(", ");
        return element("p", {}, `${board.sets.length > 1 ? `${KINDS[board.kind].sets[at]}: ` : ""}${shape}; ${countWords(set.length, "byte")}`);
    });
}

function groupRules(number, limits) {
    const rules = rulesOfGroup(number, limits);
    return rules.length > 0 && element("details", { class: "rules" },
        element("summary", {}, `The ${rules.length} rules of number ${number}: ${GROUPS[number]}`),
        element("dl", {}, rules.flatMap((rule) => [element("dt", {}, [rule.number && `${rule.number} `, rule.rule]), element("dd", {}, rule.words)])));
}

// What this page could not read, or read otherwise than the library: the library's number stands. Where the library names the rule, that is enough.
function remarks(board, judged, show) {
    const found = judged.faults.length > 0 ? [] : board.sets.flatMap((set) => treeOf(set, board.kind).remarks);
    if (judged.explained !== undefined && judged.explained !== judged.number)
        found.push({ words: `${KINDS[board.kind].explain} gives ${judged.explained}; ${KINDS[board.kind].open}'s ${judged.number} stands` });
    if (found.length === 0)
        return null;
    const line = ({ place, words }) => (place === undefined || board.sets.length > 1 ? words : button(words, () => show(0, place), { class: "link" }));
    const heading = judged.number === 0 ? STUMBLED : NOTICED;
    return element("div", { class: "remarks" }, element("p", {}, heading), element("ul", {}, found.slice(0, 5).map((one) => element("li", {}, line(one)))));
}

// `name` says what is judged; `show` leads to a byte; `useAs` lends it otherwise.
export function showVerdict(place, board, judged, { show, useAs }) {
    const accepted = judged.number === 0, which = board.sets.length > 1 && judged.number <= 6 ? ` in the ${KINDS[board.kind].sets[judged.set]}` : "";
    place.className = accepted ? "verdict accepted" : "verdict refused";
    const subject = element("span", { class: "subject" }, judged.name);
    fill(place,
        element("h2", {}, accepted ? ["Accepted: ", subject] : [`Refused with ${judged.number}${which}: `, subject]),
        accepted ? acceptedWords(board) : element("p", { class: "number" }, `Number ${judged.number}: ${numberWords(judged.number)}.`),
        hint(board, judged, useAs),
        faultRows(judged.faults, { lent: board, show }),
        accepted ? null : groupRules(judged.number, limitsOf(board, judged.set)),
        remarks(board, judged, show));
}

// What stands in the verdict's place where there is none.
export function showComplaint(place, words) {
    place.className = "verdict refused";
    fill(place, element("h2", {}, words));
}
