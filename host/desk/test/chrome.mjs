// A headless Chromium and a page in it, by the pipe that Chromium itself offers: no package beside it is needed.
import { spawn } from "node:child_process";
import { mkdtempSync, rmSync } from "node:fs";
import { tmpdir } from "node:os";
import { join } from "node:path";

const FLAGS = ["--headless=new", "--remote-debugging-pipe", "--no-sandbox", "--disable-gpu", "--disable-dev-shm-usage", "--no-first-run", "--hide-scrollbars",
    "--disable-background-networking", "--disable-component-update", "--disable-sync", "--host-resolver-rules=MAP * ~NOTFOUND"];

/** Starts the browser; `send` asks it, `on` hears what it reports. */
export function startChrome(program) {
    const folder = mkdtempSync(join(tmpdir(), "desk-chrome-"));
    const child = spawn(program, [...FLAGS, "--user-data-dir=" + folder, "about:blank"], { stdio: ["ignore", "ignore", "ignore", "pipe", "pipe"] });
    const waiting = new Map(), listeners = [];
    let next = 1, left = "";
    child.stdio[4].setEncoding("utf8").on("data", (some) => {
        const parts = (left + some).split("\0");
        left = parts.pop();
        parts.forEach((part) => hear(JSON.parse(part)));
    });
    function hear(message) {
        if (!message.id) return listeners.forEach((listener) => listener(message));
        const { resolve, reject } = waiting.get(message.id);
        waiting.delete(message.id);
        return message.error ? reject(new Error(JSON.stringify(message.error))) : resolve(message.result);
    }
    function send(method, params = {}, sessionId = undefined) {
        const id = next++;
        child.stdio[3].write(JSON.stringify({ id, method, params, sessionId }) + "\0");
        return new Promise((resolve, reject) => waiting.set(id, { resolve, reject }));
    }
    async function close() {
        const gone = new Promise((resolve) => child.once("exit", resolve));
        await send("Browser.close").catch(() => {});
        await gone;
        rmSync(folder, { recursive: true, force: true, maxRetries: 5 });
    }
    return { send, on: (listener) => listeners.push(listener), close };
}

/** Opens a page of a width; keeps every request that it makes, and every fault that its script throws. */
export async function openPage(chrome, url, width, height = 900) {
    const { targetId } = await chrome.send("Target.createTarget", { url: "about:blank" });
    const { sessionId } = await chrome.send("Target.attachToTarget", { targetId, flatten: true });
    const send = (method, params) => chrome.send(method, params, sessionId);
    const requests = [], faults = [];
    let loaded;
    const load = new Promise((resolve) => { loaded = resolve; });
    chrome.on(({ method, params, sessionId: from }) => {
        if (from !== sessionId) return;
        if (method === "Network.requestWillBeSent") requests.push(params.request.url);
        if (method === "Runtime.exceptionThrown") faults.push(params.exceptionDetails.exception?.description ?? params.exceptionDetails.text);
        if (method === "Page.loadEventFired") loaded();
        if (method === "Page.javascriptDialogOpening") send("Page.handleJavaScriptDialog", { accept: true });
    });
    for (const domain of ["Network", "Runtime", "Page"]) await send(domain + ".enable");
    await send("Emulation.setDeviceMetricsOverride", { width, height, deviceScaleFactor: 1, mobile: false });
    await send("Page.navigate", { url });
    await load;
    return { send, requests, faults, ...doings(send) };
}

/** What a person does at a page, and what is seen there. */
function doings(send) {
    async function look(code) {
        const { result, exceptionDetails } = await send("Runtime.evaluate", { expression: code, awaitPromise: true, returnByValue: true });
        if (exceptionDetails) throw new Error(exceptionDetails.exception?.description ?? exceptionDetails.text);
        return result.value;
    }
    async function press(key, code = key, modifiers = 0) {
        const codes = { Tab: 9, Enter: 13, End: 35, Home: 36, ArrowLeft: 37, ArrowUp: 38, ArrowRight: 39, ArrowDown: 40, F8: 119, a: 65, Backspace: 8 };
        const event = { key, code, modifiers, windowsVirtualKeyCode: codes[key], ...(key === "Enter" ? { text: "\r" } : {}) };
        await send("Input.dispatchKeyEvent", { type: "keyDown", ...event, ...(modifiers === 2 && key === "a" ? { commands: ["selectAll"] } : {}) });
        await send("Input.dispatchKeyEvent", { type: "keyUp", ...event });
    }
    async function until(code, what) {
        for (let tries = 0; tries < 200; tries++) {
            if (await look(code)) return;
            await new Promise((resolve) => setTimeout(resolve, 50));
        }
        throw new Error(`waited in vain until ${what ?? code}`);
    }
    return { look, press, until, type: (text) => send("Input.insertText", { text }),
        picture: async (selector = "body") => {
            const at = await look(`(({ x, y, width, height }) => ({ x, y, width, height }))(document.querySelector("${selector}").getBoundingClientRect())`);
            return Buffer.from((await send("Page.captureScreenshot", { captureBeyondViewport: true, clip: { ...at, scale: 1 } })).data, "base64");
        },
        pdf: async () => Buffer.from((await send("Page.printToPDF", { preferCSSPageSize: true, printBackground: false })).data, "base64") };
}
