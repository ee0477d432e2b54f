// A board's sets and its serial block in the C language, for its flash: an array each, with a remark at each descriptor.
import { leavesOf, serialNode, treeOf } from "./set.js";
import { hexadecimal } from "./bytes.js";

const IN_LINE = 16;
const remark = (words) => `    /* ${words.replaceAll("*/", "* /")} */`;

function* byteLines(bytes) {
    for (let at = 0; at < bytes.length; at += IN_LINE)
        yield `    ${Array.from(bytes.subarray(at, at + IN_LINE), (byte) => `0x${hexadecimal(byte)},`).join(" ")}`;
}

function* arrayLines(name, bytes, nodes) {
    yield `static const uint8_t ${name}[${bytes.length}] = {`;
    let at = 0;
    for (const { title, start, end } of leavesOf(nodes)) {
        if (start < at)
            continue;
        yield* byteLines(bytes.subarray(at, start));
        yield remark(title);
        yield* byteLines(bytes.subarray(start, end));
        at = end;
    }
    yield* byteLines(bytes.subarray(at));
    yield "};";
}

const lent = (name, bytes) => (bytes?.length > 0 ? `${name}, sizeof ${name}` : "NULL, 0");

// Of another vendor's board the library knows no more than its set.
function boardLines({ kind, sets, serial }) {
    const blocks = [lent("device_set", sets[0]), lent("device_serial", serial), lent("device_high", sets[1])];
    return kind === "super" ? [] : ["", `static const hk_board device_board = {${blocks.join(", ")}};`];
}

// What a board lends, by the names that makers/array gives it; `words` say what that is.
export function cOf({ kind, sets, serial }, words) {
    const lines = [remark(words).trim(), kind === "super" ? "#include <stdint.h>" : '#include "heideklonk_board.h"'];
    sets.forEach((bytes, at) => lines.push("", ...arrayLines(["device_set", "device_high"][at], bytes, treeOf(bytes, kind).nodes)));
    if (serial.length > 0)
        lines.push("", "/* This unit's own. */", ...arrayLines("device_serial", serial, [serialNode(serial)]));
    return `${[...lines, ...boardLines({ kind, sets, serial })].join("\n")}\n`;
}
