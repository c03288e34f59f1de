"use strict";
// A headless Chromium, driven over its debugging pipe.
const { spawn } = require("node:child_process");
const fs = require("node:fs");
const os = require("node:os");
const path = require("node:path");

class Browser {
    constructor(program) {
        this.folder = fs.mkdtempSync(path.join(os.tmpdir(), "view-"));
        this.child = spawn(program, ["--headless=new", "--no-sandbox", "--disable-gpu", "--remote-debugging-pipe",
            "--no-first-run", "--disable-dev-shm-usage", "--user-data-dir=" + this.folder, "about:blank"],
            { stdio: ["ignore", "ignore", "ignore", "pipe", "pipe"] });
        this.sent = 0;
        this.waiting = new Map();
        this.events = [];
        this.gone = new Promise(resolve => this.child.on("exit", resolve));
        this.child.on("error", error => this.failAll(error));
        this.child.on("exit", () => this.failAll(new Error("the browser ended")));
        let text = "";
        const decoder = new TextDecoder();
        this.child.stdio[4].on("data", data => {
            const parts = (text + decoder.decode(data, { stream: true })).split("\0");
            text = parts.pop();
            parts.forEach(part => this.hear(JSON.parse(part)));
        });
    }

    failAll(error) {
        this.waiting.forEach(({ reject }) => reject(error));
        this.waiting.clear();
    }

    hear(message) {
        if (message.id === undefined) {
            this.events.push(message);
            return;
        }
        const { resolve, reject } = this.waiting.get(message.id);
        this.waiting.delete(message.id);
        if (message.error) reject(new Error(message.error.message));
        else resolve(message.result);
    }

    send(method, params = {}) {
        return new Promise((resolve, reject) => {
            const id = ++this.sent;
            this.waiting.set(id, { resolve, reject });
            this.child.stdio[3].write(JSON.stringify({ id, method, params, sessionId: this.session }) + "\0");
        });
    }

    async open() {
        const { targetInfos } = await this.send("Target.getTargets");
        const { targetId } = targetInfos.find(target => target.type === "page");
        this.session = (await this.send("Target.attachToTarget", { targetId, flatten: true })).sessionId;
        for (const domain of ["Page", "Runtime", "Log", "Network"]) await this.send(domain + ".enable");
    }

    async size(width, height, scale = 1) {
        const sizes = { width, height, deviceScaleFactor: scale, mobile: false };
        await this.send("Emulation.setDeviceMetricsOverride", sizes);
    }

    async media(features) {
        await this.send("Emulation.setEmulatedMedia", { features });
    }

    // Opens a file, and waits until it is there.
    async visit(file, hash = "") {
        await this.send("Page.navigate", { url: "about:blank" });
        this.events = [];
        await this.send("Page.navigate", { url: "file://" + file + hash });
        const isThere = () => document.readyState === "complete" && location.href !== "about:blank";
        while (!await this.run(isThere)) await new Promise(resolve => setTimeout(resolve, 10));
    }

    // What a function answers in the page.
    async run(act, ...words) {
        const { result, exceptionDetails } = await this.send("Runtime.evaluate", {
            expression: `(${act})(...${JSON.stringify(words)})`, returnByValue: true, awaitPromise: true,
        });
        if (exceptionDetails) throw new Error(exceptionDetails.exception?.description || exceptionDetails.text);
        return result.value;
    }

    async key(key, code = key, text = undefined) {
        const numbers = { " ": 32, Home: 36, End: 35, ArrowLeft: 37, ArrowUp: 38, ArrowRight: 39, ArrowDown: 40 };
        const windowsVirtualKeyCode = numbers[key];
        await this.send("Input.dispatchKeyEvent", { type: "keyDown", key, code, text, windowsVirtualKeyCode });
        await this.send("Input.dispatchKeyEvent", { type: "keyUp", key, code, windowsVirtualKeyCode });
    }

    async click(x, y) {
        for (const type of ["mousePressed", "mouseReleased"]) {
            await this.send("Input.dispatchMouseEvent", { type, x, y, button: "left", clickCount: 1 });
        }
    }

    async close() {
        await this.send("Browser.close").catch(() => {});
        await this.gone;
        fs.rmSync(this.folder, { recursive: true, force: true });
    }
}

module.exports = { Browser };
