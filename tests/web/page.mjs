// page.mjs PAGE NATIVE BROWSER VECTORS..: the makers' page in a browser, as a maker uses it, held to what the native programs say (NATIVE, from native.py).
// page.mjs --picture PAGE BROWSER FILE: a picture of the page, with what it shows in words; PAGE NATIVE .. holds FILE docs/page.png to today's page.
import { readFileSync, rmSync, writeFileSync } from "node:fs";
import { basename, resolve } from "node:path";
import { pathToFileURL } from "node:url";
import { Browser } from "./browser.mjs";
import { Room, counted, dropSet, freshName, hold, openPanel, overflow, textOf, typeText, verdict } from "./room.mjs";
import { checkPeople } from "./people.mjs";
import { checkPicture, takePicture } from "./picture.mjs";
import { subsequence } from "./transcript.mjs";

const DEVICES = 12; // so many recorded devices are dropped
const PANELS = ["set", "enumeration", "requests", "compare", "make"];
const QUICK = 500; // milliseconds of work from a drop to the picture

// ---- what is shown
// The tree as the lister's lines have it.
const treeLines = () => {
    const lines = [];
    for (const item of document.querySelectorAll("#tree [role=treeitem]")) {
        const { node } = item, found = /^endpoint (\d+) (IN|OUT): (\w+), (\d+) bytes$/.exec(node.title);
        const setting = /^setting (\d+): .*, (\d+) endpoints?$/.exec(node.title);
        if (setting)
            lines.push(`I ${item.above.node.number} ${setting[1]} ${setting[2]}`);
        if (found)
            lines.push(`E ${Number(found[1]) + (found[2] === "IN" ? 128 : 0)} ${["control", "isochronous", "bulk", "interrupt"].indexOf(found[3])} ${found[4]}`);
    }
    return lines.join("\n");
};

// The steps that stand on the page, as lines of a transcript.
const stepLines = () => [...document.querySelectorAll("#steps > li")].flatMap((item) => {
    const texts = (selector) => [...item.querySelectorAll(selector)].map((one) => one.textContent);
    const records = [...item.querySelectorAll(".record")].map((one) => [one.querySelector(".name").textContent, one.lastChild.textContent]);
    const after = records.map(([name, words]) => `  ${name}: ${words}`);
    if (item.matches(".heading"))
        return item.querySelector(".record") ? ["power on, the set is accepted", ...after] : [];
    const [event] = texts(".event span"), [setup] = texts(".event code"), [answer] = texts(".answer");
    const data = [...item.querySelectorAll(".datum")].map((one) => [one.querySelector("code").textContent, one.querySelector("span").textContent]);
    if (event === "a key is pressed")
        return [`${event}: ${answer}`, ...after];
    const first = setup ? `${event} (${setup})` : event;
    if (data.length > 0 && !event.startsWith("GET_DESCRIPTOR"))
        return [first, `  -> ${answer}: ${data[0][0]}`, ...after];
    return [first, ...(answer ? [`  -> ${answer}`] : []), ...data.map(([bytes, words]) => `     ${bytes}  ${words}`), ...after];
});

// The rule in words, and the byte, marked among the others.
async function checkRule(browser, { name, explained, serial, set }) {
    const rule = await textOf(browser, "#verdict .rule"), lead = await textOf(browser, "#verdict .lead");
    const marked = await browser.evaluate("document.querySelector('.byte.broken')?.id ?? null");
    hold(`the rule of ${name}`, /^Rule (\d+): ./.exec(rule ?? "")?.[1], `${explained?.[1]}`);
    if ((explained?.[0] === 6 ? serial : set) !== "")
        hold(`the byte of ${name}`, `${lead} ${marked}`, `Byte ${explained?.[2]}${explained?.[0] === 6 ? " of the serial block" : ""} byte-${explained?.[2]}`);
}

async function checkSet(browser, room, told) {
    const { name, listing, transcript } = told, refused = /^REFUSED (\d+)/.exec(listing);
    await openPanel(browser, "set");
    await dropSet(browser, room, told);
    hold(`the verdict of ${name}`, await verdict(browser), refused ? `Refused with ${refused[1]}` : "Accepted");
    hold(`the lister's lines of ${name}`, await textOf(browser, "#listing"), listing);
    if (refused && (await browser.evaluate("heideklonk.library.has('hk_explain')")))
        await checkRule(browser, told);
    await openPanel(browser, "enumeration");
    if (refused) {
        hold(`no enumeration of ${name}`, await browser.evaluate("document.querySelectorAll('#steps > li').length"), 0);
        return 0;
    }
    hold(`the tree of ${name}`, await browser.evaluate(`(${treeLines})()`), listing.split("\n").filter((line) => /^[IE]/.test(line)).join("\n"));
    if (await browser.evaluate("!document.getElementById('end').disabled"))
        await browser.press("#end");
    await browser.evaluate("document.querySelectorAll('.rest').forEach((rest) => { rest.open = true; }), new Promise((seen) => setTimeout(seen, 20))");
    const { found, missing } = subsequence(await browser.evaluate(`(${stepLines})()`), transcript.split("\n"));
    hold(`the enumeration of ${name}`, missing, null);
    return found;
}

async function checkSets(browser, room, native) {
    const step = Math.floor(native.recorded.length / DEVICES), devices = native.recorded.filter((_, at) => at % step === 0).slice(0, DEVICES);
    let steps = 0;
    for (const told of [...native.sets, ...devices])
        steps += await checkSet(browser, room, told);
    console.log(`${native.sets.length} sets and ${devices.length} recorded devices dropped: verdict, tree and listing as the lister's, ${steps} steps as the bench host's`);
}

// ---- links between tree, bytes and fields; a byte changed
async function checkLinks(browser, room, native) {
    await openPanel(browser, "set");
    await dropSet(browser, room, native.sets.find(({ name }) => name.includes("titrator")));
    const chosen = () => browser.evaluate("[...document.querySelectorAll('.byte.chosen')].map((cell) => cell.textContent).join(' ')");
    await browser.evaluate("[...document.querySelectorAll('#tree [role=treeitem]')].find((item) => item.node.title.startsWith('endpoint 1 IN')).querySelector('.label').click()");
    hold("the bytes of a node", await chosen(), "07 05 81 02 40 00 00");
    await browser.press("#byte-67");
    hold("the field of a byte", await textOf(browser, "#fields tr.current"), "bMaxPacketSize064");
    hold("the node of a byte", await browser.evaluate("document.querySelector('#tree [aria-selected=true]').node.title"), "device");
    await browser.evaluate("document.getElementById('changed').value = '07'");
    await browser.press("#fields button[type=submit]");
    hold("a changed byte is judged at once", await verdict(browser), "Refused with 3");
}

// ---- the keyboard alone
async function checkKeyboard(browser) {
    await browser.evaluate("document.getElementById('tab-set').click(); document.getElementById('tab-set').focus()");
    await browser.key("ArrowRight", 39);
    hold("arrow keys turn the panels", await browser.evaluate("document.activeElement.id"), "tab-enumeration");
    await browser.key("Home", 36);
    await browser.key("Tab", 9);
    hold("the tree is reached", await browser.evaluate("document.activeElement.getAttribute('role')"), "treeitem");
    await browser.key("Home", 36);
    await browser.key("ArrowDown", 40);
    await browser.key("ArrowRight", 39);
    await browser.key("ArrowRight", 39);
    hold("an entry of the contents", await browser.evaluate("document.activeElement.node.title"), "entry 1: device");
    await browser.evaluate("document.getElementById('bytes').focus()");
    await browser.key("ArrowDown", 40);
    hold("the bytes under the keys", await browser.evaluate("document.getElementById('bytes').getAttribute('aria-activedescendant')"), "byte-20");
}

// Every control has a name for a screen reader.
async function checkNames(browser) {
    await browser.send("Accessibility.enable");
    const roles = new Set(["button", "textbox", "combobox", "tab", "tabpanel", "tree", "treeitem", "grid", "log", "list", "status", "link", "region"]);
    let named = 0;
    for (const panel of PANELS) {
        await openPanel(browser, panel);
        const { nodes } = await browser.send("Accessibility.getFullAXTree");
        const controls = nodes.filter(({ ignored, role }) => !ignored && roles.has(role?.value) && role.value !== "list" && role.value !== "status");
        const nameless = controls.filter(({ name }) => !name?.value);
        hold(`names in the panel ${panel}`, nameless.map(({ role }) => role.value).join(" "), "");
        named += controls.length;
    }
    console.log(`${named} controls have names`);
}

// ---- requests of one's own
async function say(browser, line) {
    await browser.press("#request");
    await browser.evaluate("document.getElementById('request').select()");
    await browser.type(line);
    await browser.key("Enter", 13, "\r");
    return browser.evaluate("[...document.querySelectorAll('#log > li:last-child > *')].map((one) => one.textContent)");
}

async function checkRequests(browser, room, native) {
    await dropSet(browser, room, native.sets.find(({ name }) => name.includes("titrator")));
    await openPanel(browser, "requests");
    const has = async (line, ...wanted) => {
        const said = (await say(browser, line)).join(" | ");
        for (const one of wanted)
            hold(`${line} is answered with ${one}`, said.includes(one) ? one : said, one);
    };
    await has("80 06 00 01 00 00 12 00", "GET_DESCRIPTOR device, 18 bytes asked", "18 bytes in one packet", "12 01 00 02 EF 02 01 40");
    await has("SET_ADDRESS 9", "Default, address 0, address 9 waits");
    await has("GET_CONFIGURATION", "STALL, 11", "recordDefault, address 0");
    await has("status end", "status end");
    hold("the address was dropped", (await textOf(browser, "#record code")).slice(0, 8), "00 00 FF");
    await has("SET_ADDRESS 9", "waits");
    await has("status end", "Address, address 9");
    await has("set_configuration 2", "Configured, address 9, configuration 2");
    await has("halt 0x81", "halted 81");
    await has("power 7", "16: ");
    await has("SET_CONFIGURATION", "not asked: here wValue is missing");
    await has("12 3", "not asked: 12 3 is no request");
    hold("the board's endpoints", (await textOf(browser, "#record p:last-child")).startsWith("Endpoints to open: 81 bulk of 64"));
    console.log("requests typed in: bytes and names, and between SET_ADDRESS and its status end");
}

// ---- sets made
async function checkTexts(browser, room, native) {
    for (const { name, source, set, serial } of native.texts) {
        await openPanel(browser, "make");
        await typeText(browser, source);
        if (set === null) {
            hold(`${name} is refused`, (await textOf(browser, "#written .outcome")).startsWith("Refused with 21"));
            continue;
        }
        await browser.press("#written [data-file='set.bin']");
        const saved = await room.savedFile("set.bin");
        hold(`the saved set of ${name}`, saved?.toString("hex"), set);
        await dropSet(browser, room, { name: "saved.bin", set: saved.toString("hex"), serial });
        hold(`${name}, saved and read back`, await verdict(browser), "Accepted");
    }
    await openPanel(browser, "make");
    await typeText(browser, "device\nconfiguration bMaxPower 251\ninterface");
    hold("why a text is refused", (await textOf(browser, "#written")).includes("The opener would refuse the set with 4"));
    await typeText(browser, "device bMaxPower 3");
    hold("where a text has a mistake", (await textOf(browser, "#written")).includes("line 1: device has the fields"));
    console.log(`${native.texts.length} texts typed in; sets saved and read back`);
}

async function checkMade(browser, room, native) {
    const dumps = native.dumps.filter((_, at) => at % 6 === 0);
    await openPanel(browser, "make");
    for (const { name, dump, set } of dumps) {
        await browser.evaluate("document.getElementById('of-files').replaceChildren()");
        await browser.drop([room.file("descriptors", Buffer.from(dump, "hex"))]);
        await browser.until("document.querySelector('#of-files .outcome')");
        const outcome = await textOf(browser, "#of-files .outcome");
        if (set === null) {
            hold(`the import of ${name}`, /^Refused with 2[13]/.test(outcome));
            continue;
        }
        await browser.press("#of-files [data-file='set.bin']");
        hold(`the import of ${name}`, (await room.savedFile("set.bin"))?.toString("hex"), set);
    }
    const trims = native.recorded.filter(({ trimmed }) => trimmed !== null).slice(0, 3);
    for (const told of trims) {
        await dropSet(browser, room, told);
        await openPanel(browser, "make");
        await browser.press("#trim");
        await browser.press("#of-lent button");
        hold(`the trimmed ${told.name}`, (await room.savedFile("trimmed.bin"))?.toString("hex"), told.trimmed);
        await browser.press("#to-dump");
        await browser.press("#of-lent button");
        hold(`the exported ${told.name}`, (await room.savedFile("descriptors"))?.toString("hex"), told.exported);
        await browser.press("#to-text");
        hold(`the text of ${told.name}`, await browser.evaluate("document.getElementById('text').value"), told.text);
        await browser.press("#to-words");
        hold(`the text of ${told.name}, in words`, await browser.evaluate("document.getElementById('text').value"), told.inWords);
    }
    console.log(`${dumps.length} descriptors files imported, ${trims.length} sets trimmed, exported and read as texts`);
}

// ---- long sets, widths, and what a page must not do
// Milliseconds that the page has worked so far, waiting for other work on the machine not counted.
async function worked(browser) {
    await browser.evaluate("new Promise((painted) => requestAnimationFrame(() => setTimeout(painted)))");
    const { metrics } = await browser.send("Performance.getMetrics");
    return 1000 * metrics.find(({ name }) => name === "TaskDuration").value;
}

async function checkLong(browser, room, native) {
    await browser.send("Performance.enable", { timeDomain: "threadTicks" });
    for (const told of native.long) {
        await openPanel(browser, "set");
        const before = await worked(browser);
        await dropSet(browser, room, told);
        const between = await worked(browser);
        hold(`the lister's lines of ${told.name}`, await textOf(browser, "#listing"), told.listing);
        await openPanel(browser, "enumeration");
        await browser.until("document.querySelectorAll('#steps > li').length > 20");
        const after = await worked(browser);
        hold(`${told.name}: 16,384 bytes are quick`, between - before < QUICK && after - between < QUICK);
        console.log(`16,384 bytes of ${told.name}: shown in ${Math.round(between - before)} ms, 40 steps of the enumeration in ${Math.round(after - between)} ms`);
    }
}

async function checkWidths(browser, room, native) {
    await dropSet(browser, room, native.sets.find(({ name }) => name.includes("titrator")));
    for (const width of [320, 360, 768, 1280]) {
        await browser.size(width, 800);
        for (const panel of PANELS) {
            await openPanel(browser, panel);
            hold(`no panel is wider than ${width} (${panel})`, await overflow(browser, width), "");
        }
    }
    await browser.size(1200, 900);
}

// ---- other kinds of sets, where the library has their calls: the first pair and the first SuperSpeed set that the vectors have accepted
function boardsIn(files) {
    const found = {}, lent = { set: "", high: "none", serial: "-" };
    for (const line of files.flatMap((file) => readFileSync(file, "utf8").split("\n"))) {
        const [word, value] = line.split(" ");
        if (word in lent)
            lent[word] = value;
        if (line.startsWith("open -> 0 ") && lent.high !== "none")
            found.two ??= { ...lent };
        if (line.startsWith("opensuper -> 0 "))
            found.super ??= { ...lent };
    }
    return found;
}

async function lendKind(browser, room, kind, { set, high, serial }) {
    const chosen = { set, serial, ...(kind === "two" && { high }) };
    await browser.call((value) => {
        document.getElementById("kind").value = value;
        document.getElementById("kind").dispatchEvent(new Event("change"));
    }, kind);
    for (const [name, text] of Object.entries(chosen)) {
        const fresh = freshName(`${name}.bin`);
        await browser.chooseFiles(`#choose-${name}`, [room.file(fresh, Buffer.from(text === "-" ? "" : text, "hex"))]);
        await browser.until(`heideklonk.page.lent.${name}.name === ${JSON.stringify(fresh)}`);
    }
}

async function checkTwo(browser, room, lent) {
    const broken = (text) => `${text.slice(0, 6)}01${text.slice(8)}`;
    await lendKind(browser, room, "two", lent);
    hold("a pair is accepted", await verdict(browser), "Accepted");
    await openPanel(browser, "requests");
    hold("a reset to high speed", (await say(browser, "reset to high")).join(" | ").includes("high speed"));
    hold("the device_qualifier", (await say(browser, "GET_DESCRIPTOR device_qualifier")).join(" | ").includes("10 bytes in one packet"));
    await openPanel(browser, "enumeration");
    await browser.evaluate("document.getElementById('speed').value = '1'; document.getElementById('speed').dispatchEvent(new Event('change'))");
    hold("an enumeration at high speed", (await textOf(browser, "#steps")).includes("other_speed_configuration"));
    await lendKind(browser, room, "two", { ...lent, high: broken(lent.high) });
    hold("the high-speed set is to blame", await verdict(browser), "Refused with 1 in the high-speed set");
    await lendKind(browser, room, "two", { ...lent, set: broken(lent.set) });
    hold("the full-speed set is to blame", await verdict(browser), "Refused with 1 in the full-speed set");
}

async function checkSuper(browser, room, lent) {
    await lendKind(browser, room, "super", lent);
    hold("a SuperSpeed set is accepted", await verdict(browser), "Accepted");
    await openPanel(browser, "set");
    hold("its companions are shown", (await textOf(browser, "#tree")).includes("companion"));
    await openPanel(browser, "enumeration");
    hold("no board of ours answers from it", await browser.evaluate("document.querySelectorAll('#steps > li').length"), 0);
}

async function checkKinds(browser, room, vectors) {
    const kinds = await browser.evaluate("[...document.getElementById('kind').options].map((option) => option.value)"), boards = boardsIn(vectors);
    if (kinds.includes("two") && boards.two)
        await checkTwo(browser, room, boards.two);
    if (kinds.includes("super") && boards.super)
        await checkSuper(browser, room, boards.super);
    console.log(`kinds of sets offered: ${kinds.join(" ")}`);
}

function checkQuiet(browser, page) {
    const asked = browser.heard.filter(({ method }) => method === "Network.requestWillBeSent").map(({ params }) => params.request.url);
    hold("no request to anywhere", asked.filter((url) => url !== page && !url.startsWith("blob:") && !url.startsWith("data:") && url !== "about:blank").join(" "), "");
    const wrong = browser.heard.filter(({ method, params }) => method === "Runtime.exceptionThrown" || (method === "Log.entryAdded" && params.entry.level === "error"));
    hold("no error", wrong.map(({ params }) => JSON.stringify(params).slice(0, 300)).join(" "), "");
}

// The vectors, by the library as the page in this browser calls it.
async function checkVectors(browser, files) {
    const source = readFileSync(new URL("./vectors.mjs", import.meta.url), "utf8").replace("export function", "function");
    let asked = 0, differing = 0;
    for (const file of files) {
        const result = await browser.evaluate(`(() => { ${source}\nreturn askVectors(heideklonk.library, heideklonk.listing, ${JSON.stringify(readFileSync(file, "utf8"))}); })()`);
        asked += result.asked;
        differing += result.differing.length;
        result.differing.slice(0, 3).forEach((line) => console.log(`    ${basename(file)}: ${line}`));
    }
    hold("the vectors in the browser", differing, 0);
    console.log(`${asked} questions of ${files.length} files of vectors asked in the browser, ${differing} differ`);
}

async function open(program, page) {
    const browser = await Browser.start(program);
    await browser.size(1200, 900);
    await browser.visit(page);
    await browser.until("document.body.dataset.ready === 'yes'");
    return browser;
}

async function test([page, natively, program, ...vectors]) {
    const address = pathToFileURL(resolve(page)).href, native = JSON.parse(readFileSync(natively, "utf8"));
    const room = new Room(), browser = await open(program, address);
    try {
        await browser.send("Browser.setDownloadBehavior", { behavior: "allow", downloadPath: room.saved });
        await checkSets(browser, room, native);
        await checkLinks(browser, room, native);
        await checkKeyboard(browser);
        await checkNames(browser);
        await checkRequests(browser, room, native);
        await checkTexts(browser, room, native);
        await checkMade(browser, room, native);
        await checkLong(browser, room, native);
        await checkWidths(browser, room, native);
        await checkKinds(browser, room, vectors);
        await checkPeople(browser, room, native, vectors);
        await checkVectors(browser, vectors);
        await checkPicture(browser, "docs/page.png");
        checkQuiet(browser, address);
    } finally {
        await browser.end();
        rmSync(room.folder, { recursive: true, force: true });
    }
    console.log(`page: ${counted.held} comparisons, ${counted.failures} failed`);
    process.exit(counted.failures === 0 ? 0 : 1);
}

const words = process.argv.slice(2);
await (words[0] === "--picture" ? takePicture(open, ...words.slice(1)) : test(words));
