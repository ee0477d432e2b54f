// The device record in words, for show alone.
import { hexadecimal } from "./bytes.js";
import { EVENT } from "./library.js";

const STATES = ["Default", "Address", "Configured"];

// The addresses whose bit is set: bit e is OUT number e, bit 16 + e is IN.
function endpointsOf(bits) {
    const found = [];
    for (let bit = 0; bit < 32; bit++)
        if ((bits[bit >> 3] >> (bit & 7)) & 1)
            found.push(hexadecimal(bit < 16 ? bit : bit - 16 + 0x80));
    return found;
}

const waitingWords = (byte) => (byte === 255 ? "" : byte > 127 ? `test mode ${byte - 128} waits` : `address ${byte} waits`);

const speedWords = (byte) => (byte === 0 ? "" : byte === 1 ? "high speed" : `high speed, test mode ${byte >> 4}`);

// What the bytes of a record say, the most telling first.
function recordPhrases(record) {
    const alternates = Array.from(record.slice(8, 24), (alternate, number) => (alternate > 0 ? `interface ${number} at alternate ${alternate}` : ""));
    const halted = endpointsOf(record.slice(24, 28)), toggled = endpointsOf(record.slice(28, 32));
    return [
        STATES[record[0]] ?? "no state",
        `address ${record[1]}`,
        waitingWords(record[2]),
        record[3] > 0 ? `configuration ${record[3]}` : "",
        record[4] > 0 ? "remote wakeup on" : "",
        record[5] > 0 ? "own supply" : "",
        record[6] > 0 ? "suspended" : "",
        speedWords(record[7]),
        ...alternates,
        halted.length > 0 ? `halted ${halted.join(" ")}` : "",
        toggled.length > 0 ? `toggle 1 at ${toggled.join(" ")}` : "",
    ].filter((phrase) => phrase !== "");
}

export const recordWords = (record) => recordPhrases(record).join(", ");

// The fields of the record's image, each with its bytes and its words.
export function recordFields(record) {
    const settings = Array.from(record.slice(8, 24), (alternate, number) => (alternate > 0 ? `${number}: ${alternate}` : "")).filter(Boolean);
    const byte = (name, at, words) => ({ name, start: at, length: 1, figures: `${record[at]}`, words });
    return [
        byte("state", 0, STATES[record[0]] ?? "none"),
        byte("address", 1, ""),
        byte("waiting", 2, waitingWords(record[2]) || "nothing"),
        byte("configuration", 3, record[3] === 0 ? "none" : ""),
        byte("remote wakeup", 4, record[4] === 0 ? "off" : "on"),
        byte("power", 5, record[5] === 0 ? "bus" : "own supply"),
        byte("suspended", 6, record[6] === 0 ? "no" : "yes"),
        byte("speed", 7, speedWords(record[7]) || "full speed"),
        { name: "alternates", start: 8, length: 16, figures: settings.join(", ") || "all 0", words: "" },
        { name: "halts", start: 24, length: 4, figures: endpointsOf(record.slice(24, 28)).join(" ") || "none", words: "" },
        { name: "toggles", start: 28, length: 4, figures: endpointsOf(record.slice(28, 32)).join(" ") || "none", words: "" },
    ];
}

export const speedOf = (record) => (record[7] === 0 ? 0 : 1);

// Whether an event may have opened or closed endpoints.
export const movesEndpoints = ({ event, setup }) => event === EVENT.BUS_RESET || (event === EVENT.SETUP && (setup[1] === 9 || setup[1] === 11));
