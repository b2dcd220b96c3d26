// What the desk's tests are given, and what a hand does at the page.
import { execFileSync } from "node:child_process";
import { startChrome } from "./chrome.mjs";

export const [pageFile, drive, builtFile, textsFolder, pictures] = process.argv.slice(2);
export const chrome = startChrome("chromium");

const CONTROL = 2; // the modifier's bit
/** A script with a misspelt name. */
export const WRONG = "(type percent (range 0 100))\n(var stick percent)\n(var speed percent)\n(main (:= speed (div stik 2)))\n";

export const text = (page, id) => page.look(`Array.from(document.getElementById("${id}").children, (part) => part.textContent + "\\n").join("")`);
/** The table's rows in the page: name, and value after. */
export const ROWS = 'Array.from(document.getElementById("cells").rows, (row) => row.cells[0].textContent + " " + row.cells[2].textContent + "\\n").join("")';
export const focused = (page) => page.look("document.activeElement.id || document.activeElement.dataset.path || document.activeElement.tagName");

/** By keys alone to an element. */
export async function tabTo(page, id) {
    for (let tries = 0; tries < 60; tries++) {
        if (await focused(page) === id) return;
        await page.press("Tab");
    }
    throw new Error(`no Tab leads to ${id}`);
}

export async function writeScript(page, script) {
    await tabTo(page, "area");
    await page.press("a", "KeyA", CONTROL);
    await page.type(script);
}

export async function chooseExample(page, name) {
    await page.look(`{ const e = document.getElementById("example"); e.value = "${name}"; e.dispatchEvent(new Event("change")); }`);
}

/** Chooses a file in a field, as by the browser's window. */
export async function chooseFile(page, id, file) {
    const { root } = await page.send("DOM.getDocument");
    const { nodeId } = await page.send("DOM.querySelector", { nodeId: root.nodeId, selector: "#" + id });
    await page.send("DOM.setFileInputFiles", { nodeId, files: [file] });
}

export function drivePrints(words) {
    try {
        return execFileSync(drive, words, { encoding: "utf8" });
    } catch (ended) {
        return ended.stdout; // a status of 1: the run did not end normally
    }
}
