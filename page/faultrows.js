// Faults as they are shown: rule, byte, field, what was found and what should be there or is allowed, and where that is.
import { button, element } from "./element.js";
import { foundWords, wordsOf } from "./faults.js";
import { MOST_TOLD } from "./mending.js";
import { SERIAL } from "./board.js";
import { placeWords, treeOf } from "./set.js";

const MOST_OPEN = 4;
const upper = (letter) => letter.toUpperCase();

// One fault of what is lent, as lines; `show` leads to its byte, and `line` gives the line of the text that it is in.
function faultLines(fault, trees, { lent, show, line }) {
    const words = wordsOf(lent, fault), isSerial = fault.block === SERIAL, block = show && !isSerial && lent.sets.length === 1 ? "" : ` of ${words.block}`;
    const place = fault.inDump === undefined ? `Byte ${fault.place}${block}` : `Byte ${fault.inDump} of the descriptors file`;
    const lead = show ? button(place, () => show(fault.block, fault.place), { class: "link lead" }) : place;
    return [
        element("p", { class: "rule" }, element("strong", {}, `Rule ${fault.rule}: `), words.rule),
        line && element("p", {}, line(fault)),
        words.remark && element("p", { class: "remark" }, words.remark.replace(/^./, upper), "."),
        element("p", { class: "found" }, words.found ? [lead, words.field && `, ${words.field}`, ": ", foundWords(words)] : `${foundWords(words).replace(/^./, upper)}.`),
        !isSerial && words.found && element("p", { class: "quiet where" }, placeWords(trees[fault.block].nodes, fault.place)),
    ];
}

// All faults, the first as it is and the others in a list.
export function faultRows(faults, about) {
    if (faults.length === 0)
        return null;
    const trees = about.lent.sets.map((set) => treeOf(set, about.lent.kind)), [first, ...others] = faults.map((fault) => faultLines(fault, trees, about));
    const some = `${others.length} more fault${others.length === 1 ? "" : "s"}`, most = faults.length >= MOST_TOLD ? ", and there may be more" : "";
    const list = element("ol", {}, others.map((lines) => element("li", {}, lines)));
    return [
        first,
        others.length > 0 && element("details", { class: "more-faults", open: others.length <= MOST_OPEN },
            element("summary", {}, `${some}${most}, found by mending a copy as told:`), list),
    ];
}
