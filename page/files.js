// Files as they come: what one may be, from its name and its bytes.
import { readHexadecimal, word } from "./bytes.js";
import { LONGEST_SET } from "./library.js";

const LARGEST = 64 << 20;
const isText = (bytes) => bytes.length > 0 && bytes.length < 1 << 20 && bytes.every((byte) => byte >= 32 || byte === 9 || byte === 10 || byte === 13);
const decoded = (bytes) => new TextDecoder().decode(bytes);

const isSerial = (bytes) => bytes.length >= 4 && bytes.length <= 254 && bytes.length % 2 === 0 && bytes[0] === bytes.length && bytes[1] === 3;
const isDump = (bytes) => bytes.length >= 27 && bytes[0] === 18 && bytes[1] === 1 && bytes[19] === 2;
const isSet = (bytes) => bytes.length >= 4 && word(bytes, 0) === bytes.length && bytes[3] === 0;

function isPieces(bytes) {
    let at = 0;
    while (at + 6 <= bytes.length && bytes[at] >= 1 && bytes[at] <= 15)
        at += 6 + word(bytes, at + 4);
    return bytes.length > 0 && at === bytes.length;
}

// What a file is taken for: a set, unless it looks like something else.
export function guess(name, bytes) {
    if (isSet(bytes))
        return "set";
    if (isText(bytes) && readHexadecimal(decoded(bytes)) !== null)
        return "hexadecimal";
    if (isText(bytes) && /^\s*(?:#|device|configuration|languages|string|serial|piece)\b/m.test(decoded(bytes)))
        return "text";
    if (isDump(bytes))
        return "dump";
    if (isSerial(bytes) || (/unit|serial/i.test(name) && bytes.length <= 256))
        return "serial";
    return isPieces(bytes) ? "pieces" : "set";
}

// Hexadecimal text is read as the bytes that it says.
export function plain({ name, bytes }) {
    const read = guess(name, bytes) === "hexadecimal" ? readHexadecimal(decoded(bytes)) : bytes;
    return { name: read === bytes ? name : `${name}, read from hexadecimal`, bytes: read };
}

// A file's name and bytes.
export async function readFile(file) {
    if (file.size > LARGEST)
        throw new Error(`${file.name} has ${file.size} bytes: no set is longer than ${LONGEST_SET}`);
    return { name: file.name, bytes: new Uint8Array(await file.arrayBuffer()) };
}

export const textOfFile = decoded;
