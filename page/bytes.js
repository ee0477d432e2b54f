// Bytes as a person reads and writes them.

export const word = (bytes, at) => bytes[at] | (bytes[at + 1] << 8);

export const hexadecimal = (number, digits = 2) => number.toString(16).toUpperCase().padStart(digits, "0");

export const spaced = (bytes) => Array.from(bytes, (byte) => hexadecimal(byte)).join(" ");

export const alike = (one, other) => one.length === other.length && one.every((byte, at) => byte === other[at]);

export const countWords = (count, noun) => `${count.toLocaleString("en-US")} ${noun}${count === 1 ? "" : "s"}`;

export function joined(blocks) {
    const result = new Uint8Array(blocks.reduce((length, block) => length + block.length, 0));
    let at = 0;
    for (const block of blocks) {
        result.set(block, at);
        at += block.length;
    }
    return result;
}

export const littleEndian = (number, size) => Uint8Array.from({ length: size }, (_, at) => Math.floor(number / 256 ** at) & 255);

// The bytes of a text of pairs of digits, with spaces between pairs or not; null if it is none.
export function readHexadecimal(text) {
    if (!/^\s*(?:[0-9a-f]{2}\s*)*$/i.test(text))
        return null;
    return Uint8Array.from(text.match(/[0-9a-f]{2}/gi) ?? [], (pair) => parseInt(pair, 16));
}

// A number as Python reads it: decimal, or 0x, 0o, 0b; null if it is none.
export function readNumber(text) {
    return /^(?:0x[0-9a-f]+|0o[0-7]+|0b[01]+|0+|[1-9][0-9]*)$/i.test(text) ? Number(text) : null;
}

// The 16-bit letters of a string descriptor's bytes, from byte 2 on.
export function letters(bytes) {
    let text = "";
    for (let at = 2; at + 1 < bytes.length; at += 2)
        text += String.fromCharCode(word(bytes, at));
    return text;
}

export const toBase64 = (bytes) => btoa(Array.from(bytes, (byte) => String.fromCharCode(byte)).join(""));

export function fromBase64(text) {
    return Uint8Array.from(atob(text), (letter) => letter.charCodeAt(0));
}
