// A browser without a window, by its DevTools protocol over a pipe: messages end with a zero byte.
import { spawn } from "node:child_process";
import { mkdtempSync, rmSync } from "node:fs";
import { tmpdir } from "node:os";
import { join } from "node:path";

const FLAGS = [
    "--headless=new", "--remote-debugging-pipe", "--no-first-run", "--no-default-browser-check", "--disable-gpu", "--disable-dev-shm-usage", "--hide-scrollbars",
    "--disable-background-networking", "--disable-component-update", "--disable-sync",
];
const PATIENCE = 60000;

export class Browser {
    static async start(program) {
        const browser = new Browser(program);
        const { targetId } = await browser.send("Target.createTarget", { url: "about:blank" });
        const { sessionId } = await browser.send("Target.attachToTarget", { targetId, flatten: true });
        browser.session = sessionId;
        for (const domain of ["Page", "Runtime", "Network", "DOM", "Log"])
            await browser.send(`${domain}.enable`);
        return browser;
    }

    constructor(program) {
        this.folder = mkdtempSync(join(tmpdir(), "browser-"));
        const sandbox = process.getuid() === 0 ? ["--no-sandbox"] : [];
        this.process = spawn(program, [...FLAGS, ...sandbox, `--user-data-dir=${join(this.folder, "profile")}`], { stdio: ["ignore", "ignore", "ignore", "pipe", "pipe"] });
        this.waiting = new Map();
        this.heard = []; // every event, as { method, params }
        this.last = 0;
        let left = Buffer.alloc(0);
        this.process.stdio[4].on("data", (bytes) => {
            left = Buffer.concat([left, bytes]);
            for (let end; (end = left.indexOf(0)) >= 0; left = left.subarray(end + 1))
                this.hear(JSON.parse(left.subarray(0, end).toString()));
        });
        this.process.on("exit", () => this.waiting.forEach(({ reject }) => reject(new Error("the browser has ended"))));
    }

    hear(message) {
        if (message.id === undefined)
            return void this.heard.push(message);
        const { resolve, reject, method } = this.waiting.get(message.id);
        this.waiting.delete(message.id);
        if (message.error)
            reject(new Error(`${method}: ${message.error.message}`));
        else
            resolve(message.result);
    }

    send(method, params = {}) {
        const id = ++this.last;
        this.process.stdio[3].write(JSON.stringify({ id, method, params, ...(this.session && { sessionId: this.session }) }) + "\0");
        return new Promise((resolve, reject) => {
            const timer = setTimeout(() => reject(new Error(`${method}: no answer`)), PATIENCE);
            const settle = (done) => (value) => { clearTimeout(timer); done(value); };
            this.waiting.set(id, { resolve: settle(resolve), reject: settle(reject), method });
        });
    }

    // The value of an expression in the page; a promise's when it is settled.
    async evaluate(expression) {
        const { result, exceptionDetails } = await this.send("Runtime.evaluate", { expression, awaitPromise: true, returnByValue: true });
        if (exceptionDetails)
            throw new Error(`${expression.slice(0, 200)}: ${exceptionDetails.exception?.description ?? exceptionDetails.text}`);
        return result.value;
    }

    // A function of the page with values from here.
    call(work, ...values) {
        return this.evaluate(`(${work})(${values.map((value) => JSON.stringify(value)).join(", ")})`);
    }

    // Waits until an expression holds.
    async until(expression, milliseconds = PATIENCE) {
        for (const end = Date.now() + milliseconds; Date.now() < end; await new Promise((wake) => setTimeout(wake, 20)))
            if (await this.evaluate(expression).catch(() => false)) // while a page is loaded, there may be none to ask
                return;
        throw new Error(`this does not come about: ${expression}`);
    }

    async visit(address) {
        await this.send("Page.navigate", { url: address });
        await this.until("document.readyState === 'complete'");
    }

    // Loads the page again; `ready` says when it stands.
    async reload(ready) {
        await this.evaluate("document.body.replaceChildren(), delete document.body.dataset.ready");
        await this.send("Page.reload");
        await this.until(ready);
    }

    async size(width, height, scale = 1) {
        await this.send("Emulation.setDeviceMetricsOverride", { width, height, deviceScaleFactor: scale, mobile: width < 600 });
    }

    async picture({ whole = false } = {}) {
        const { data } = await this.send("Page.captureScreenshot", { format: "png", captureBeyondViewport: whole, ...(whole && { clip: await this.extent() }) });
        return Buffer.from(data, "base64");
    }

    async extent() {
        const { cssContentSize } = await this.send("Page.getLayoutMetrics");
        return { x: 0, y: 0, width: cssContentSize.width, height: cssContentSize.height, scale: 1 };
    }

    // The middle of what a selector finds.
    place(selector) {
        return this.call((wanted) => {
            const found = document.querySelector(wanted);
            found.scrollIntoView({ block: "center" });
            const { x, y, width, height } = found.getBoundingClientRect();
            return { x: x + width / 2, y: y + height / 2 };
        }, selector);
    }

    async press(selector) {
        const point = await this.place(selector);
        for (const type of ["mousePressed", "mouseReleased"])
            await this.send("Input.dispatchMouseEvent", { type, ...point, button: "left", clickCount: 1 });
    }

    async key(key, code = 0, text = undefined) {
        await this.send("Input.dispatchKeyEvent", { type: "keyDown", key, windowsVirtualKeyCode: code, ...(text && { text }) });
        await this.send("Input.dispatchKeyEvent", { type: "keyUp", key, windowsVirtualKeyCode: code });
    }

    async type(text) {
        await this.send("Input.insertText", { text });
    }

    // Files dropped on the page, as from a folder's window.
    async drop(files) {
        const data = { items: [], files, dragOperationsMask: 1 };
        for (const type of ["dragEnter", "dragOver", "drop"])
            await this.send("Input.dispatchDragEvent", { type, x: 200, y: 200, data });
    }

    async chooseFiles(selector, files) {
        const { root } = await this.send("DOM.getDocument"), { nodeId } = await this.send("DOM.querySelector", { nodeId: root.nodeId, selector });
        await this.send("DOM.setFileInputFiles", { nodeId, files });
    }

    async end() {
        const ended = new Promise((resolve) => this.process.once("exit", resolve));
        this.session = undefined;
        this.send("Browser.close").catch(() => {});
        await Promise.race([ended, new Promise((wake) => setTimeout(wake, 5000))]);
        this.process.kill("SIGKILL");
        rmSync(this.folder, { recursive: true, force: true, maxRetries: 5 });
    }
}
