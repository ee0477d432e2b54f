// The text of a full-speed set at high speed: bMaxPacketSize0 is 64 there, bulk endpoints have 512 bytes, and intervals count 2 to the power of
// bInterval - 1 eighths of a millisecond; each endpoint comes as often as before, or a little more often.
import { FACTS } from "./facts.js";
import { Mistake, readLines } from "./text.js";

const ISOCHRONOUS = 1, BULK = 2, INTERRUPT = 3;
const MOST_INTERVAL = 16, CONTROL_SIZE = 64, BULK_SIZE = 512, EIGHTHS = 3; // 8 microframes are 2 to the power of 3
const USUAL = Object.fromEntries(FACTS.fields.endpoint[1].map(([name, , usual]) => [name, usual]));

// What the fields of a line become.
function changed(word, { bmAttributes = USUAL.bmAttributes, bInterval = USUAL.bInterval }) {
    if (word === "device")
        return { bMaxPacketSize0: CONTROL_SIZE };
    const kind = bmAttributes & 3;
    if (kind === BULK)
        return { wMaxPacketSize: BULK_SIZE };
    if (kind === INTERRUPT)
        return { bInterval: Math.min(MOST_INTERVAL, Math.floor(Math.log2(8 * Math.max(1, bInterval))) + 1) };
    return kind === ISOCHRONOUS ? { bInterval: Math.min(MOST_INTERVAL, bInterval + EIGHTHS) } : {};
}

// A line with a field's value changed, or added behind the fields that it has.
function withValue(text, name, value) {
    const named = new RegExp(`(\\s${name}[ =]+)\\S+`);
    return named.test(text) ? text.replace(named, `$1${value}`) : text.replace(/^(.*?)(\s+more\s.*|\s+#.*|\s*)$/, `$1 ${name} ${value}$2`);
}

// The fields of a line; none where it cannot be read, which the text's own reader tells.
function fieldsOf(line) {
    try {
        return line.named()[0];
    } catch (error) {
        if (error instanceof Mistake)
            return null;
        throw error;
    }
}

export function highSpeedText(text) {
    const lines = text.split("\n");
    for (const line of readLines(text)) {
        const fields = ["device", "endpoint"].includes(line.word) ? fieldsOf(line) : null;
        for (const [name, value] of Object.entries(fields ? changed(line.word, fields) : {}))
            lines[line.number - 1] = withValue(lines[line.number - 1], name, value);
    }
    return lines.join("\n");
}
