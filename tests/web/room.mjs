// What the tests of the page share: comparisons that are counted, a folder for files, and what a person does at the page.
import { mkdirSync, mkdtempSync, readFileSync, readdirSync, rmSync, writeFileSync } from "node:fs";
import { tmpdir } from "node:os";
import { basename, join } from "node:path";

export const counted = { held: 0, failures: 0 };

export function hold(what, found, expected = true) {
    counted.held++;
    if (found === expected)
        return;
    counted.failures++;
    console.log(`page: ${what} DISAGREES: ${String(found).slice(0, 400)}, and not ${String(expected).slice(0, 400)}`);
}

// The text has these words.
export const holdWords = (what, text, words) => hold(what, text?.includes(words) ? words : text, words);

export const textOf = (browser, selector) => browser.call((wanted) => document.querySelector(wanted)?.textContent ?? null, selector);
export const openPanel = (browser, name) => browser.press(`#tab-${name}`);
export const verdict = async (browser) => (await textOf(browser, "#verdict h2")).split(":")[0];

// What stands wider than the screen: a phone's browser widens the page to hold it, so that it is measured by the screen. What scrolls by itself may be wide.
export const overflow = (browser, width) => browser.call((wide) => {
    const scrolls = (one) => one !== document.body && (["auto", "scroll", "hidden"].includes(getComputedStyle(one).overflowX) || scrolls(one.parentElement));
    const found = [...document.body.querySelectorAll("*")].filter((one) => one.checkVisibility() && one.getBoundingClientRect().right > wide + 0.5 && !scrolls(one.parentElement));
    return found.slice(0, 3).map((one) => `${one.tagName}#${one.id}.${one.className}`).join(" ");
}, width);

export class Room {
    constructor() {
        this.folder = mkdtempSync(join(tmpdir(), "page-"));
        this.saved = join(this.folder, "saved");
        mkdirSync(this.saved);
    }

    file(name, content) {
        const path = join(this.folder, name);
        writeFileSync(path, content);
        return path;
    }

    // The file that was saved last under this name, when it is whole; a browser may have put a number behind its stem.
    async savedFile(name) {
        const [stem, ending] = /^(.*?)(\.\w+)?$/.exec(name).slice(1), isNamed = (one) => one.startsWith(stem) && one.endsWith(ending ?? "") && !one.endsWith(".crdownload");
        for (const end = Date.now() + 10000; Date.now() < end; await new Promise((wake) => setTimeout(wake, 20))) {
            const files = readdirSync(this.saved), found = files.find(isNamed);
            if (found && !files.some((one) => one.endsWith(".crdownload"))) {
                const content = readFileSync(join(this.saved, found));
                rmSync(join(this.saved, found));
                return content;
            }
        }
        console.log(`page: ${name} was not saved; there are ${readdirSync(this.saved).join(", ")}`);
        return null;
    }
}

let dropped = 0;

// A name that no file had before.
export const freshName = (name) => `${++dropped}-${name}`;

// Each under a name of its own, so that it is seen when it is shown.
export async function dropSet(browser, room, { name, set, serial }) {
    const stem = freshName(basename(name).replace(/\.\w+$/, "")), files = [room.file(`${stem}.bin`, Buffer.from(set, "hex"))];
    if (serial !== "")
        files.push(room.file(`${stem}-unit.bin`, Buffer.from(serial, "hex")));
    await browser.drop(files);
    await browser.until(`document.getElementById("set-name").textContent.startsWith(${JSON.stringify(`${stem}.bin, `)})`);
}

// A file as it is, dropped.
export async function dropFile(browser, room, name, content) {
    const fresh = freshName(name);
    await browser.drop([room.file(fresh, content)]);
    await browser.until(`document.getElementById("set-name").textContent.startsWith(${JSON.stringify(fresh)})`);
}

export async function typeText(browser, text) {
    await browser.evaluate("document.getElementById('text').value = ''; document.getElementById('text').focus()");
    await browser.type(text);
    await browser.until("document.querySelector('#written .outcome')");
    await new Promise((wake) => setTimeout(wake, 400));
}
