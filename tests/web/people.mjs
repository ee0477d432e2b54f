// The page as a maker meets it first: sets without their serial block, texts with mistakes, what was typed and a reload, sets compared and saved as C.
import { execFileSync } from "node:child_process";
import { dropFile, dropSet, freshName, hold, holdWords, openPanel, overflow, textOf, typeText, verdict } from "./room.mjs";

const PHONE = 360;
const bytesOf = (text) => Buffer.from(text, "hex");
const titrator = (native) => native.sets.find(({ name }) => name.includes("titrator"));
const pressExample = (browser, words) => browser.call((name) => [...document.querySelectorAll("#examples button")].find((one) => one.textContent.includes(name)).click(), words);

async function chooseKind(browser, kind) {
    await browser.call((value) => {
        document.getElementById("make-kind").value = value;
        document.getElementById("make-kind").dispatchEvent(new Event("change"));
    }, kind);
}

// ---- a set that names a serial number, without a serial block
const NO_SERIAL = "This set names a serial number (string 3): give a serial block";

async function checkNoSerial(browser, room, native) {
    const { set } = titrator(native), refused = async (what) => {
        hold(`${what} is refused`, await verdict(browser), "Refused with 6");
        holdWords(`${what}, and why`, await textOf(browser, "#verdict"), NO_SERIAL);
    };
    await pressExample(browser, "Bench set S");
    await openPanel(browser, "set");
    await dropFile(browser, room, "titrator.bin", bytesOf(set));
    await refused("a set without its serial block");
    await dropFile(browser, room, "titrator.hex", set.match(/../g).join(" "));
    await refused("the same as hexadecimal text");
    await pressExample(browser, "Titrator");
    await browser.press("#no-serial");
    await refused("the titrator, its serial block emptied");
    await dropFile(browser, room, "nothing.bin", "");
    hold("an empty file is refused", await verdict(browser), "Refused with 1");
    holdWords("an empty file, and why", await textOf(browser, "#verdict"), "The set is empty");
    for (const panel of ["enumeration", "requests", "compare", "make", "set"])
        await openPanel(browser, panel);
    console.log("sets without their serial block and an empty file are told");
}

// ---- what a verdict is about stands in it
async function checkSubject(browser) {
    await openPanel(browser, "set");
    await pressExample(browser, "Titrator");
    hold("the verdict says of what", await textOf(browser, "#verdict h2"), "Accepted: Titrator");
    await openPanel(browser, "make");
    await typeText(browser, "device\nconfiguration bMaxPower 251\ninterface");
    holdWords("the text's verdict says of what", await textOf(browser, "#written .outcome"), "Refused with 21: this text");
    const grounds = await browser.evaluate("['verdict', 'written'].map((id) => getComputedStyle(document.getElementById(id)).backgroundColor)");
    const [good, bad] = await browser.evaluate(`['accepted', 'refused'].map((name) => {
        const one = document.body.appendChild(document.createElement('div'));
        one.className = 'verdict ' + name;
        const colour = getComputedStyle(one).backgroundColor;
        one.remove();
        return colour;
    })`);
    hold("no green stands beside a refused text", grounds[0] !== good && grounds[1] === bad);
}

// ---- texts: the line at fault, with rule and byte
async function checkLines(browser) {
    const told = async (text) => {
        await typeText(browser, text);
        return textOf(browser, "#written");
    };
    await openPanel(browser, "make");
    const nine = "device\nconfiguration\ninterface\n# three remarks\n#\n#\n#\n#\nbytes 0A 21 11 01 00 01 22 3F 00";
    holdWords("a class descriptor's bLength", await told(nine), "line 9: bLength says 10, 9 bytes stand here");
    holdWords("bytes! takes it so", await told(`${nine.replace("bytes 0A", "bytes! 0A")}\nbytes! 00`), "Accepted");
    const endpoint = await told("device\nconfiguration\ninterface\nendpoint\nendpoint bEndpointAddress 0x82 bmAttributes 2 wMaxPacketSize 9");
    holdWords("an endpoint's fault has its line", endpoint, "Line 5: endpoint bEndpointAddress 0x82 bmAttributes 2 wMaxPacketSize 9");
    holdWords("an endpoint's fault has its rule", endpoint, "Rule 428");
    holdWords("an endpoint's fault has its byte and field", endpoint, "Byte 67 of the set, wMaxPacketSize: found 09 00 (9), allowed: 08 00, 10 00, 20 00 or 40 00");
    const missing = await told("languages 0x0407 en-US\nstring 1 0x0407 a\ndevice\nconfiguration\ninterface iInterface 1");
    holdWords("a missing string has the reference's line", missing, "Line 5: interface iInterface 1");
    holdWords("a missing string, by language", missing, "String 1 is missing in 0409 (en-US)");
    const several = await told("device bMaxPacketSize0 7\nconfiguration bMaxPower 251\ninterface bInterfaceNumber 1\nendpoint bInterval 0");
    for (const words of ["Line 1: ", "Line 2: ", "Line 3: ", "Line 4: ", "3 more faults"])
        holdWords("every fault of a text is told", several, words);
    hold("in a few words above the text", await textOf(browser, "#written-brief"), "Refused: line 1, rule 307, bMaxPacketSize0 is 8, 16, 32 or 64, and 3 faults more");
    await browser.evaluate("document.querySelectorAll('#written .to-line')[3].click()");
    hold("a fault leads to its line", await browser.evaluate("(({ value, selectionStart, selectionEnd }) => value.slice(selectionStart, selectionEnd))(document.getElementById('text'))"), "endpoint bInterval 0");
    console.log("texts with faults: each by rule, byte and line");
}

// Lends a pair or a SuperSpeed set and a serial block, each in hexadecimal.
const lendAll = (browser, kind, blocks) => browser.call((wanted, all) => {
    const files = all.map((hex, at) => ({ name: `block ${at}`, bytes: Uint8Array.from(hex.match(/../g) ?? [], (pair) => parseInt(pair, 16)) }));
    heideklonk.page.use({ kind: wanted, set: files[0], ...(files.length === 3 && { high: files[1] }), serial: files.at(-1) });
}, kind, blocks);

// ---- every fault, in the native program's words
async function checkFaults(browser, room, native) {
    let faults = 0;
    const ofKind = (wanted, count) => native.explained.filter(({ kind }) => kind === wanted).filter((_, at, all) => at % Math.ceil(all.length / count) === 0);
    const chosen = [...ofKind("one", 12), ...ofKind("two", 6), ...ofKind("super", 6)];
    await openPanel(browser, "set");
    for (const { name, kind, sets, set, serial, briefs } of chosen) {
        if (kind === "one")
            await dropSet(browser, room, { name: "broken.bin", set, serial });
        else
            await lendAll(browser, kind, [...sets, serial]);
        const rules = await browser.evaluate("[...document.querySelectorAll('#verdict .rule')].map((one) => one.textContent)");
        hold(`the faults of ${name}`, rules.map((rule) => /\d+/.exec(rule)[0]).join(" "), briefs.map((brief) => /\d+/.exec(brief)[0]).join(" "));
        faults += briefs.length;
    }
    await browser.call((value) => heideklonk.page.use({ kind: value }), "one");
    await pressExample(browser, "Titrator");
    await browser.evaluate("heideklonk.page.changeByte(0, 80, 0xA4)");
    holdWords("what should stand there", await textOf(browser, "#verdict"), "wTotalLength: found A4 00 (164), should be A5 00 (165): the body has 165 bytes");
    console.log(`${faults} faults of ${chosen.length} refused sets and pairs told as makers/explain tells them`);
}

// ---- what was typed survives a reload, and can be undone
const reload = (browser) => browser.reload("document.body?.dataset.ready === 'yes'");

// What may stand under the page's name in a browser's storage.
const FOREIGN = ["no JSON", "[1]", '{"lent":{"states":[{}]},"texts":5,"panel":"x"}', '{"texts":{"states":[{"kind":"one"}],"at":-3},"lent":{"states":[],"at":7}}'];

async function checkReload(browser, room) {
    const text = () => browser.evaluate("document.getElementById('text').value"), own = "# my own\ndevice idProduct 7\nconfiguration\ninterface\n";
    await openPanel(browser, "make");
    const before = await text();
    await typeText(browser, own);
    await browser.evaluate("[...document.querySelectorAll('#texts button')].at(-1).click()");
    hold("another text is started", (await text()) !== own);
    await browser.press("#undo-text");
    hold("and undone", await text(), own);
    await reload(browser);
    hold("what was typed survives a reload", await text(), own);
    await browser.press("#save-text");
    hold("what was typed can be saved", (await room.savedFile("set.txt"))?.toString(), own);
    hold("so does the panel", await browser.evaluate("document.querySelector('[aria-selected=true]').id"), "tab-make");
    await browser.evaluate("document.getElementById('text').focus()");
    for (let count = 0; count < 8 && (await text()) !== before; count++)
        await browser.send("Input.dispatchKeyEvent", { type: "keyDown", key: "z", windowsVirtualKeyCode: 90, modifiers: 2 });
    hold("what was typed is undone by keys, after a reload too", await text(), before);
    await openPanel(browser, "set");
    await pressExample(browser, "Laboratory scale");
    await browser.evaluate("heideklonk.page.changeByte(0, 3, 1)");
    await reload(browser);
    hold("a changed set survives a reload", await textOf(browser, "#verdict h2"), "Refused with 1: Laboratory scale, changed");
    await browser.press("#undo");
    hold("a changed byte is undone", await textOf(browser, "#verdict h2"), "Accepted: Laboratory scale");
    await browser.press("#redo");
    hold("and done again", await verdict(browser), "Refused with 1");
    for (const kept of FOREIGN) {
        await browser.call((text) => localStorage.setItem("heideklonk", text), kept);
        await reload(browser);
        hold("what is not the page's own is not taken up", await textOf(browser, "#verdict h2"), "Accepted: Bench set S");
    }
    await browser.evaluate("document.body.dataset.ready = 'no'");
    await browser.press("#forget");
    await browser.until("document.body?.dataset.ready === 'yes'");
    hold("what was kept is forgotten when asked", `${await textOf(browser, "#verdict h2")} ${await browser.evaluate("document.getElementById('undo').disabled")}`, "Accepted: Bench set S true");
    console.log("what was typed survives a reload, and can be undone");
}

// ---- two sets side by side
async function checkCompare(browser, room, native) {
    const { set, serial } = titrator(native), other = Buffer.from(set, "hex");
    other[67] = 8;
    await dropSet(browser, room, { name: "titrator.bin", set, serial });
    await openPanel(browser, "compare");
    await browser.chooseFiles("#choose-other", [room.file(freshName("other.bin"), other)]);
    await browser.until("document.querySelectorAll('.compared tbody tr').length > 0");
    const rows = () => browser.evaluate("[...document.querySelectorAll('.compared tbody tr')].map((row) => [...row.children].map((cell) => cell.textContent).join(' | '))");
    hold("the field that differs", (await rows()).slice(0, 2).join("; "), "device | ; bMaxPacketSize0 | 64 | 8");
    hold("the rest is alike", (await rows()).length, 3);
    await browser.press("#keep-other");
    holdWords("a set and itself", await textOf(browser, "#differences"), "Byte for byte the same");
    await browser.evaluate("heideklonk.page.useExample({ name: 'S', set: 'PwACAAEAAAAUABIAAgAAACYAGQASAQAC/wAACDQSeFYAAQAAAAEJAhkAAQEAgDIJBAAAAf8AAAAHBYEDCAAK', serial: '' })");
    const only = (await rows()).filter((row) => row.includes("not there"));
    hold("what only one has is told", only.length > 10 && only.every((row) => row.includes("only here")));
    console.log("two sets stand side by side");
}

// Two sets dropped at once: a pair, in any order, or two to compare.
async function checkTwoDropped(browser, room, native) {
    const { sets: [full, high], serial } = native.templates.find(({ kind }) => kind === "two"), { set } = titrator(native);
    const file = (name, hex) => room.file(freshName(name), bytesOf(hex)), lent = () => browser.evaluate("[heideklonk.page.lent.kind, heideklonk.page.board.number].join(' ')");
    await pressExample(browser, "Bench set S");
    await browser.drop([file("b.bin", high), file("a.bin", full), file("unit.bin", serial)]);
    await browser.until("heideklonk.page.lent.kind === 'two'");
    hold("a pair dropped at once is one", await lent(), "two 0");
    await pressExample(browser, "Bench set S");
    await browser.drop([file("one.bin", set), file("other.bin", native.sets.find(({ name }) => name.includes("bench.txt")).set)]);
    await browser.until("document.querySelectorAll('.compared tbody tr').length > 0");
    hold("two other sets are compared", await browser.evaluate("heideklonk.page.panel"), "tab-compare");
}

// ---- C, for a board's flash
const PRINT = `#include <stdio.h>
static void print(const uint8_t *block, size_t length) { for (size_t at = 0; at < length; at++) printf("%02x", block[at]); puts(""); }
int main(void) {
    print(device_board.set, device_board.set_length);
    print(device_board.serial, device_board.serial_length);
    print(device_board.high, device_board.high_length);
    return 0;
}
`;

// The blocks of the board that a header makes.
function compiled(room, source) {
    const path = room.file("board.c", `${source}\n${PRINT}`), program = `${path}.out`;
    execFileSync("cc", ["-std=c99", "-Wall", "-Wextra", "-Werror", "-pedantic", "-Iinclude", "-DHK_ANY_VERSION", "-O1", "-o", program, path]);
    return execFileSync(program).toString().trim();
}

async function checkC(browser, room, native) {
    const pair = native.templates.find(({ kind }) => kind === "two"), saved = async () => (await room.savedFile("device.h"))?.toString() ?? "";
    for (const { name, set, serial } of native.sets) {
        await dropSet(browser, room, { name, set, serial });
        await browser.press("#save-c");
        hold(`${name} as C`, compiled(room, await saved()), [set, serial].join("\n").trim());
    }
    await openPanel(browser, "make");
    await chooseKind(browser, "two");
    await browser.press("#texts button");
    await browser.press("#written [data-file='device.h']");
    hold("a pair as C", compiled(room, await saved()), [pair.sets[0], pair.serial, pair.sets[1]].join("\n"));
    await chooseKind(browser, "one");
    console.log(`${native.sets.length} sets and a pair saved as C, which compiles to the same bytes`);
}

// ---- other kinds: told as what they look like, and texts of them
async function checkLikeness(browser, room, native) {
    await openPanel(browser, "set");
    for (const { name, set, serial, looks } of native.kinds) {
        await dropSet(browser, room, { name: "kind.bin", set, serial });
        const hint = await textOf(browser, "#verdict .hinted strong");
        hold(`what ${name} looks like`, (hint ?? "").toLowerCase(), looks && `${looks}.`.toLowerCase());
    }
    const high = native.kinds.find(({ looks }) => looks.includes("high-speed set of a pair"));
    await dropSet(browser, room, { name: "high.bin", set: high.set, serial: high.serial });
    await browser.press("#take-for");
    hold("it is taken for that", await browser.evaluate("[heideklonk.page.lent.kind, heideklonk.page.lent.high.bytes.length].join(' ')"), `two ${high.set.length / 2}`);
    await browser.press("#undo");
    await browser.call((value) => heideklonk.page.use({ kind: value }), "super");
    await dropSet(browser, room, titrator(native));
    holdWords("a single set among SuperSpeed ones", await textOf(browser, "#verdict .hinted"), "This looks like a set for one speed: opened as one, it is accepted.");
    await browser.press("#take-for");
    hold("and taken for that", await verdict(browser), "Accepted");
    console.log(`${native.kinds.length} sets of other kinds told as what they look like`);
}

async function checkKindTexts(browser, room, native) {
    await openPanel(browser, "make");
    for (const { kind, name, sets, serial } of native.templates) {
        await chooseKind(browser, kind);
        await browser.call((wanted) => [...document.querySelectorAll("#texts button")].find((one) => one.textContent === wanted).click(), name);
        const files = kind === "two" ? ["full.bin", "high.bin"] : ["set.bin"], written = files.map((file, at) => `${file}: ${sets[at].length / 2} bytes`).join(", ");
        hold(`the text of ${name}, ${kind}`, /^Accepted: .*\. Wrote (.*)\.$/.exec(await textOf(browser, "#written .outcome"))?.[1], written);
        if (kind === "one") // more than ten files at once a browser does not save; node holds all bytes
            continue;
        for (const [at, file] of [...files, "unit.bin"].entries()) {
            await browser.press(`#written [data-file="${file}"]`);
            hold(`${file} of ${name}, ${kind}`, (await room.savedFile(file))?.toString("hex"), [...sets, serial][at]);
        }
    }
    await chooseKind(browser, "one");
    console.log(`${native.templates.length} texts to start from, of all kinds, give the native programs' sets`);
}

// A pair: its texts, what is wrong with it, and the texts of a pair that is lent.
async function checkPairs(browser, room, native) {
    const told = () => textOf(browser, "#written"), type = (id, change) => browser.call((name, [from, to]) => {
        const field = document.getElementById(name);
        field.value = field.value.replace(from, to);
        field.dispatchEvent(new Event("input"));
    }, id, change).then(() => new Promise((wake) => setTimeout(wake, 400)));
    const { sets: [full, high], serial } = native.templates.find(({ kind }) => kind === "two");
    await openPanel(browser, "make");
    await chooseKind(browser, "two");
    holdWords("a pair's texts are there to start from", await told(), "Accepted: these two texts");
    await type("high-text", ["wMaxPacketSize 512", "wMaxPacketSize 511"]);
    holdWords("a pair's fault, by the byte of its set", await told(), "of the high-speed set, wMaxPacketSize: found FF 01 (511), should be 00 02 (512)");
    holdWords("which text of a pair is refused, and its line", await textOf(browser, "#written-brief"), "Refused: high-speed text, line 17, rule 428");
    await browser.evaluate("document.querySelector('#written .to-line').click()");
    holdWords("it leads to its line", await browser.evaluate("(({ value, selectionStart, selectionEnd }) => value.slice(selectionStart, selectionEnd))(document.getElementById('high-text'))"), "wMaxPacketSize 511");
    await type("high-text", ["wMaxPacketSize 511", "wMaxPacketSize many"]);
    holdWords("a mistake in the second text", await told(), "high-speed text, line 17: many is no number");
    await openPanel(browser, "set");
    const changed = Buffer.from(high, "hex");
    changed[changed.indexOf(Buffer.from([10, 6])) + 8] = 2;
    await lendAll(browser, "two", [full, changed.toString("hex"), serial]);
    hold("a pair that does not go together", await verdict(browser), "Refused with 24");
    const place = changed.indexOf(Buffer.from([10, 6])) + 8;
    holdWords("which rule", await textOf(browser, "#verdict .rule"), "Rule 2405: the device_qualifier is the one of the other set's device descriptor");
    holdWords("which byte of which set", await textOf(browser, "#verdict .found"), `Byte ${place} of the high-speed set, bNumConfigurations: found 02 (2), should be 01 (1)`);
    holdWords("and what the other set has", await textOf(browser, "#verdict .remark"), "of the full-speed set, bNumConfigurations, has 01 (1).");
    hold("the byte is marked, in its set", await browser.evaluate("[document.getElementById('blocks').value, document.querySelector('.byte.broken')?.id].join(' ')"), `1 byte-${place}`);
    await openPanel(browser, "make");
    await browser.press("#to-text");
    holdWords("the texts of a pair that is lent, types 6 and 7 made anew", await told(), "Accepted: these two texts");
    await browser.press("#texts button:last-child");
    holdWords("a pair of the text for one set", await told(), "these two texts");
    await chooseKind(browser, "one");
    console.log("pairs: their texts, and why one is refused");
}

// ---- a phone's width, with all that can be said
async function checkNarrow(browser, room, native) {
    const wide = native.explained.filter(({ kind }) => kind === "one").reduce((most, one) => (one.briefs.length > most.briefs.length ? one : most)), fits = async (what) => hold(`${what} fits a phone`, await overflow(browser, PHONE), "");
    await browser.size(PHONE, 780);
    await dropSet(browser, room, { ...wide, name: "a-set-with-a-long-name-that-has-no-space-to-be-broken-at.bin" });
    for (const panel of ["set", "compare", "make"]) {
        await openPanel(browser, panel);
        await fits(`a refused set (${panel})`);
    }
    for (const text of ["device bMaxPacketSize0 7\nconfiguration bMaxPower 251\ninterface", "device\nconfiguration\nbytes 0A 21 11 01 00 01 22 3F 00"]) {
        await typeText(browser, text);
        await fits("a refused text");
    }
    await chooseKind(browser, "two");
    await fits("two texts");
    await chooseKind(browser, "one");
    await openPanel(browser, "compare");
    await browser.press("#keep-other");
    await pressExample(browser, "Titrator");
    await openPanel(browser, "compare");
    await fits("two sets side by side");
    await browser.size(1200, 900);
}

export async function checkPeople(browser, room, native) {
    await checkNoSerial(browser, room, native);
    await checkSubject(browser);
    await checkLines(browser);
    await checkFaults(browser, room, native);
    await checkReload(browser, room);
    await checkCompare(browser, room, native);
    await checkTwoDropped(browser, room, native);
    await checkC(browser, room, native);
    await checkLikeness(browser, room, native);
    await checkKindTexts(browser, room, native);
    await checkPairs(browser, room, native);
    await checkNarrow(browser, room, native);
}
