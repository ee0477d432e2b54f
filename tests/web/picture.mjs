// docs/page.png: taken of the page with a refused set, with a remark in it of what the page said and how it looked; and held to what the page says today.
import { createHash } from "node:crypto";
import { readFileSync, writeFileSync } from "node:fs";
import { pathToFileURL } from "node:url";
import { resolve } from "node:path";
import { hold } from "./room.mjs";

const KEYWORD = "shown", SIGNATURE = 8, END = 12; // bytes of a PNG's signature, and of its last chunk

function checksum(bytes) {
    let sum = 0xFFFFFFFF;
    for (const byte of bytes) {
        sum ^= byte;
        for (let bit = 0; bit < 8; bit++)
            sum = (sum >>> 1) ^ (sum & 1 ? 0xEDB88320 : 0);
    }
    return (sum ^ 0xFFFFFFFF) >>> 0;
}

function number(value) {
    const bytes = Buffer.alloc(4);
    bytes.writeUInt32BE(value);
    return bytes;
}

// A picture with a remark, before its last chunk: an international text, not compressed.
function withRemark(picture, text) {
    const body = Buffer.concat([Buffer.from("iTXt"), Buffer.from(`${KEYWORD}\0\0\0\0\0`), Buffer.from(text)]);
    return Buffer.concat([picture.subarray(0, -END), number(body.length - 4), body, number(checksum(body)), picture.subarray(-END)]);
}

function remarkOf(picture) {
    for (let at = SIGNATURE; at < picture.length; at += 12 + picture.readUInt32BE(at)) {
        const body = picture.subarray(at + 8, at + 8 + picture.readUInt32BE(at)), name = Buffer.from(`${KEYWORD}\0\0\0\0\0`);
        if (picture.toString("latin1", at + 4, at + 8) === "iTXt" && body.subarray(0, name.length).equals(name))
            return body.toString("utf8", name.length);
    }
    return null;
}

// Brings the page to what is pictured: fresh, with the refused example. What it then says, and a sum of its style.
async function pose(browser) {
    await browser.size(1200, 1000);
    await browser.evaluate("localStorage.clear()");
    await browser.reload("document.body?.dataset.ready === 'yes'");
    await browser.evaluate("[...document.querySelectorAll('#examples button')].at(-1).click()");
    await new Promise((wake) => setTimeout(wake, 300));
    const [words, style] = await browser.evaluate("[document.body.innerText.replace(/SHA-256 \\w+|[\\d,]+ bytes of WebAssembly/g, ''), document.querySelector('style').textContent]");
    return JSON.stringify({ words, style: createHash("sha256").update(style).digest("hex") });
}

export async function takePicture(open, page, program, file) {
    const browser = await open(program, pathToFileURL(resolve(page)).href);
    try {
        const shown = await pose(browser);
        writeFileSync(file, withRemark(await browser.picture(), shown));
    } finally {
        await browser.end();
    }
}

// The part of two remarks where they part.
function parting(one, other) {
    const at = [...one].findIndex((letter, place) => letter !== other[place]);
    return at < 0 ? [one.slice(-40), other.slice(-40)] : [one, other].map((text) => text.slice(Math.max(0, at - 20), at + 60));
}

export async function checkPicture(browser, file) {
    const [stored, today] = [remarkOf(readFileSync(file)) ?? "no remark", await pose(browser)];
    hold(`${file} is of today's page (tests/page --picture takes it anew)`, ...(stored === today ? [true, true] : parting(stored, today)));
}
