// A page in headless Chromium, by the devtools protocol over a pipe: no package is needed.
import { spawn } from "node:child_process";
import fs from "node:fs";
import os from "node:os";
import path from "node:path";

const ANSWERED = 30000; // milliseconds in which a call is answered
const KEYS = { Tab: 9, Enter: 13, Escape: 27, " ": 32, ArrowLeft: 37, ArrowUp: 38, ArrowRight: 39, ArrowDown: 40 };
const TRIES = 1200, PAUSE = 25; // how often, and how many milliseconds apart, a condition is tried

const textOf = ({ exception, text }) => exception?.description ?? text;
const wait = (milliseconds) => new Promise((done) => setTimeout(done, milliseconds));

// A browser with a profile of its own: what it is asked, and what its tabs say to `hear`, by their sessions.
async function openBrowser(hear) {
    const home = fs.mkdtempSync(path.join(os.tmpdir(), "rv-page-"));
    const words = ["--headless", "--no-sandbox", "--disable-gpu", "--remote-debugging-pipe"];
    const process = spawn("chromium", [...words, `--user-data-dir=${home}`, "about:blank"], {
        stdio: ["ignore", "ignore", "ignore", "pipe", "pipe"],
    });
    const waiting = new Map();
    let calls = 0, rest = "";

    function receive({ id, error, result, ...event }) {
        if (!id) return hear(event);
        const { resolve, reject } = waiting.get(id);
        waiting.delete(id);
        if (error) reject(new Error(error.message));
        else resolve(result);
    }
    process.stdio[4].on("data", (data) => {
        rest += data;
        const whole = rest.split("\0");
        rest = whole.pop();
        for (const message of whole) receive(JSON.parse(message));
    });
    const send = (method, params = {}, sessionId) => new Promise((resolve, reject) => {
        waiting.set(++calls, { resolve, reject });
        setTimeout(() => reject(new Error(`${method} isn't answered`)), ANSWERED).unref();
        process.stdio[3].write(`${JSON.stringify({ id: calls, method, params, sessionId })}\0`);
    });
    await send("Browser.setDownloadBehavior", { behavior: "allow", downloadPath: home });

    async function close() {
        await send("Browser.close").catch(() => {});
        await new Promise((done) => process.on("exit", done));
        fs.rmSync(home, { recursive: true, force: true });
    }
    return { home, send, close };
}

// Opens a page in a browser of its own.
export async function openPage(url, options) {
    const tabs = new Map(); // by session
    const browser = await openBrowser(({ sessionId, ...event }) => tabs.get(sessionId)?.hear(event));
    return openTab(browser, tabs, url, options);
}

// Opens a page in another tab of a browser.
async function openTab(browser, tabs, url, { width = 1280, height = 720, dark = false } = {}) {
    const { home, send } = browser;
    const errors = [], asked = []; // what dialogs asked
    let worker = null; // the session of the page's worker
    let frame = null; // what evaluates in a frame of another origin
    let choosing; // is called when the page wants a file

    function hear({ method, params }) {
        if (method === "Target.attachedToTarget") {
            if (params.targetInfo.type === "iframe") frame = { session: params.sessionId };
            else worker = params.sessionId;
        }
        if (method === "Runtime.executionContextCreated" && params.context.auxData.frameId !== targetId) {
            frame = { session: sessionId, contextId: params.context.id };
        }
        if (method === "Runtime.exceptionThrown") errors.push(textOf(params.exceptionDetails));
        if (method === "Page.javascriptDialogOpening") {
            asked.push(params.message || params.type);
            call("Page.handleJavaScriptDialog", { accept: true });
        }
        if (method === "Page.fileChooserOpened") choosing(params.backendNodeId);
    }
    const { targetId } = await send("Target.createTarget", { url: "about:blank" });
    const { sessionId } = await send("Target.attachToTarget", { targetId, flatten: true });
    tabs.set(sessionId, { hear });
    const call = (method, params) => send(method, params, sessionId);
    const evaluate = async (expression, session, contextId) => {
        const words = { expression, contextId, awaitPromise: true, returnByValue: true };
        const { result, exceptionDetails } = await send("Runtime.evaluate", words, session);
        if (exceptionDetails) throw new Error(textOf(exceptionDetails));
        return result.value;
    };
    await call("Runtime.enable");
    await call("Page.enable");
    await call("Target.setAutoAttach", { autoAttach: true, waitForDebuggerOnStart: false, flatten: true });
    await call("Emulation.setDeviceMetricsOverride", { width, height, deviceScaleFactor: 1, mobile: false });
    const features = [{ name: "prefers-color-scheme", value: dark ? "dark" : "light" }];
    await call("Emulation.setEmulatedMedia", { features });
    await call("Page.setInterceptFileChooserDialog", { enabled: true });
    await call("Page.navigate", { url });

    const page = {
        call,
        errors,
        asked,

        run: (expression) => evaluate(expression, sessionId),

        // Evaluates an expression in the page's frame.
        runInFrame: async (expression) => evaluate(expression, frame.session, frame.contextId),

        // Evaluates an expression in the page's worker.
        runInWorker: (expression) => send("Runtime.evaluate", { expression }, worker),

        // Waits until an expression holds, some ten seconds at most, or `times` as long.
        async until(expression, times = 1, run = page.run) {
            for (let i = 0; i < TRIES * times; i++) {
                if (await run(expression).catch(() => false)) return;
                await wait(PAUSE);
            }
            const answer = await run("document.getElementById('answer')?.textContent");
            throw new Error(`never: ${expression}; the page says: ${answer}; errors: ${errors}`);
        },

        text: (selector) => page.run(`document.querySelector(${JSON.stringify(selector)}).textContent`),

        async click(selector) {
            const { x, y } = await page.run(`(() => {
                const it = document.querySelector(${JSON.stringify(selector)});
                it.scrollIntoView({ block: "nearest" });
                const { x, y, width, height } = it.getBoundingClientRect();
                return { x: x + width / 2, y: y + height / 2 };
            })()`);
            for (const type of ["mousePressed", "mouseReleased"]) {
                await call("Input.dispatchMouseEvent", { type, x, y, button: "left", clickCount: 1 });
            }
        },

        type: (text) => call("Input.insertText", { text }),

        // Does what opens the browser's dialog for files, and chooses a file there.
        async choose(file, open) {
            const wanted = new Promise((resolve) => (choosing = resolve));
            await open();
            await call("DOM.setFileInputFiles", { files: [file], backendNodeId: await wanted });
        },

        // The bytes of a file that the page has saved.
        async savedBytes(name) {
            const file = path.join(home, name);
            // Chromium makes an empty file of the name before it moves the bytes there.
            const isThere = () => fs.existsSync(file) && fs.statSync(file).size > 0;
            for (let i = 0; i < TRIES && !isThere(); i++) await wait(PAUSE);
            const bytes = fs.readFileSync(file);
            fs.rmSync(file);
            return bytes;
        },

        saved: async (name) => (await page.savedBytes(name)).toString(),

        // Presses a key: its name, its code, and whether Alt is held.
        async press(key, code = key, alt = false) {
            const windowsVirtualKeyCode = KEYS[key];
            const words = { key, code, modifiers: alt ? 1 : 0, windowsVirtualKeyCode };
            const text = key === "Enter" ? "\r" : undefined;
            await call("Input.dispatchKeyEvent", { type: "keyDown", text, ...words });
            await call("Input.dispatchKeyEvent", { type: "keyUp", ...words });
        },

        alt: (key) => page.press(key.toLowerCase(), key === "0" ? "Digit0" : `Key${key}`, true),

        async picture(file) {
            const { data } = await call("Page.captureScreenshot", { format: "png" });
            fs.writeFileSync(file, Buffer.from(data, "base64"));
        },

        // Waits until the page is ready.
        ready: () => page.until(`!window.isOld && document.body.dataset.ready === "yes"`, 2),

        // Loads the page anew.
        async reload() {
            await page.run("window.isOld = true");
            call("Page.reload").catch(() => {});
            await page.ready();
        },

        // Leaves the page, and goes to an address.
        async visit(url) {
            call("Page.navigate", { url: "about:blank" }).catch(() => {});
            await page.until(`location.href === "about:blank"`);
            call("Page.navigate", { url }).catch(() => {});
            await page.ready();
        },

        // Opens a page in another tab of the same browser.
        beside: (url) => openTab(browser, tabs, url),

        // Closes the tab, as a browser that asks nobody.
        leave: () => send("Target.closeTarget", { targetId }),

        close: browser.close,
    };
    return page;
}
