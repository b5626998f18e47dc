"use strict";
/** A page in headless Chromium, driven over the pipe of its developer tools. */

const child = require("child_process");
const fs = require("fs");
const path = require("path");

const NAMES = ["chromium", "chromium-browser", "google-chrome"];
const PATIENCE = 60000; // milliseconds
const FAILURES = ["Runtime.exceptionThrown", "Page.javascriptDialogOpening"];

/** The path of a Chromium; undefined where there is none. */
function find() {
    const folders = (process.env.PATH ?? "").split(":");
    const found = NAMES.flatMap((name) => folders.map((folder) => path.join(folder, name)));
    return found.find((one) => fs.existsSync(one));
}

/** Waits a while. */
function pause(milliseconds) {
    return new Promise((done) => setTimeout(done, milliseconds));
}

/** One browser with one page; `asked` are the addresses that it asked for. */
class Browser {
    constructor(program, folder) {
        const flags = ["--headless=new", "--no-sandbox", "--disable-gpu", "--no-first-run"];
        const own = [`--user-data-dir=${folder}`, "--remote-debugging-pipe"];
        own.push("--window-size=1000,1200", "--disable-dev-shm-usage");
        const stdio = ["ignore", "ignore", "ignore", "pipe", "pipe"];
        this.process = child.spawn(program, [...flags, ...own, "about:blank"], { stdio });
        Object.assign(this, { waiting: new Map(), count: 0, asked: [], told: [], rest: "" });
        this.process.stdio[4].on("data", (bytes) => this.hear(bytes));
    }

    /** Takes what the browser says: answers to calls, and what happens in the page. */
    hear(bytes) {
        const texts = (this.rest + bytes.toString()).split("\0");
        this.rest = texts.pop();
        for (const { id, method, params, result, error } of texts.map((text) => JSON.parse(text))) {
            if (method === "Network.requestWillBeSent") {
                this.asked.push(params.request.url);
            } else if (FAILURES.includes(method)) {
                this.told.push(JSON.stringify(params));
            } else if (this.waiting.has(id)) {
                const [done, failed] = this.waiting.get(id);
                this.waiting.delete(id);
                (error ? failed : done)(error ? new Error(error.message) : result);
            }
        }
    }

    /** Calls a method of the developer tools. */
    call(method, params = {}) {
        this.count += 1;
        const message = { id: this.count, method, params, sessionId: this.session };
        this.process.stdio[3].write(JSON.stringify(message) + "\0");
        return new Promise((...ways) => this.waiting.set(message.id, ways));
    }

    /** Opens a page, and waits until it is there. */
    async open(url) {
        const { targetId } = await this.call("Target.createTarget", { url: "about:blank" });
        const attached = await this.call("Target.attachToTarget", { targetId, flatten: true });
        this.session = attached.sessionId;
        for (const domain of ["Network", "Runtime", "Page", "DOM"]) {
            await this.call(`${domain}.enable`);
        }
        await this.go(url);
    }

    /** Goes to an address, where `script` runs before the page's own. */
    async go(url, script = "") {
        await this.call("Page.addScriptToEvaluateOnNewDocument", { source: script });
        await this.call("Page.navigate", { url });
        await this.until("document.readyState === 'complete' && location.href !== 'about:blank'");
    }

    /** The value of an expression in the page, or what it promises. */
    async value(expression) {
        const how = { expression, returnByValue: true, awaitPromise: true };
        const { result, exceptionDetails } = await this.call("Runtime.evaluate", how);
        if (exceptionDetails !== undefined) {
            const { exception, text } = exceptionDetails;
            throw new Error(`${expression}: ${exception?.description ?? text}`);
        }
        return result.value;
    }

    /** Waits until an expression in the page is true; answers whether it became so. */
    async until(expression) {
        const end = Date.now() + PATIENCE;
        while (!(await this.value(expression).catch(() => false))) {
            if (Date.now() > end) {
                return false;
            }
            await pause(50);
        }
        return true;
    }

    /** Writes a text into a field, as if it was typed. */
    async type(selector, text) {
        await this.value(`document.querySelector(${JSON.stringify(selector)}).select()`);
        await this.call("Input.insertText", { text });
    }

    /** Drops a file onto the page. */
    async drop(name) {
        const data = { items: [], files: [name], dragOperationsMask: 1 };
        for (const type of ["dragEnter", "dragOver", "drop"]) {
            await this.call("Input.dispatchDragEvent", { type, x: 300, y: 300, data });
        }
    }

    /** Chooses a file in a field. */
    async choose(selector, name) {
        const { root } = await this.call("DOM.getDocument");
        const { nodeId } = await this.call("DOM.querySelector", { nodeId: root.nodeId, selector });
        await this.call("DOM.setFileInputFiles", { files: [name], nodeId });
    }

    /** Gives the page a size, with a screen to touch where it is narrow; and its scheme. */
    async show(width, height, scheme = "light") {
        const mobile = width < 600;
        const size = { width, height, deviceScaleFactor: 1, mobile };
        await this.call("Emulation.setDeviceMetricsOverride", size);
        const features = [{ name: "prefers-color-scheme", value: scheme }];
        await this.call("Emulation.setEmulatedMedia", { features });
    }

    /** Presses and lets go of a key. */
    async key(key) {
        const text = key.length === 1 ? key : undefined;
        await this.call("Input.dispatchKeyEvent", { type: "keyDown", key, text });
        await this.call("Input.dispatchKeyEvent", { type: "keyUp", key });
    }

    /** Something that the mouse does at a place. */
    async mouse(type, [x, y], more = {}) {
        const how = { type, x, y, button: "left", clickCount: 1, ...more };
        await this.call("Input.dispatchMouseEvent", how);
    }

    /** Drags the mouse from one place to another. */
    async drag([x0, y0], [x1, y1], steps = 8) {
        await this.mouse("mousePressed", [x0, y0]);
        for (let step = 1; step <= steps; step++) {
            const part = step / steps;
            const place = [x0 + (x1 - x0) * part, y0 + (y1 - y0) * part];
            await this.mouse("mouseMoved", place, { buttons: 1 });
        }
        await this.mouse("mouseReleased", [x1, y1]);
    }

    /** Clicks at a place. */
    async click(place) {
        await this.mouse("mousePressed", place);
        await this.mouse("mouseReleased", place);
    }

    /** Touches the screen, moves each finger from one place to another, and lets go. */
    async touch(fingers, steps = 8) {
        const places = (part) =>
            fingers.map(([[x0, y0], [x1, y1]], id) => {
                return { id, x: x0 + (x1 - x0) * part, y: y0 + (y1 - y0) * part };
            });
        const call = (type, touchPoints) =>
            this.call("Input.dispatchTouchEvent", { type, touchPoints });
        await call("touchStart", places(0));
        for (let step = 1; step <= steps; step++) {
            await call("touchMove", places(step / steps));
        }
        await call("touchEnd", []);
    }

    /** Writes a picture of what is seen, or of the whole page, to a file. */
    async shoot(file, isWhole = false) {
        const { cssContentSize } = await this.call("Page.getLayoutMetrics");
        const { width, height } = cssContentSize;
        const clip = { x: 0, y: 0, width, height, scale: 1 };
        const how = isWhole ? { clip, captureBeyondViewport: true } : {};
        const { data } = await this.call("Page.captureScreenshot", how);
        fs.writeFileSync(file, Buffer.from(data, "base64"));
    }

    /** Ends the browser. */
    async close() {
        const ended = new Promise((done) => this.process.on("exit", done));
        delete this.session;
        this.call("Browser.close").catch(() => {});
        let timer = null;
        await Promise.race([ended, new Promise((done) => (timer = setTimeout(done, 5000)))]);
        clearTimeout(timer);
        this.process.kill("SIGKILL");
    }
}

module.exports = { Browser, find, pause };
