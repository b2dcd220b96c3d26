// What a therapist does at the desk: write, mend, run, slide, draw, open, save, print; by keys where a key does it.
import assert from "node:assert/strict";
import { execFileSync } from "node:child_process";
import { existsSync, mkdirSync, readFileSync, readdirSync, rmSync, writeFileSync } from "node:fs";
import { ROWS, WRONG, chooseExample, chooseFile, chrome, drivePrints, focused, pageFile, tabTo, text, writeScript } from "./hands.mjs";

export async function typesAndSeesTheMark(page) {
    await writeScript(page, WRONG);
    assert.equal(await page.look('document.querySelector("#back mark.fault").textContent'), "stik");
    assert.match(await text(page, "verdict"), /^refused 7 4\nRefusal 7 \(name\), line 4: .*`stik`[^]*Did you mean `stick`\?\n$/);
    await page.until('document.getElementById("can-run").hidden', "a refused script is not run");
    await page.press("F8");
    assert.equal(await page.look('document.getElementById("area").value.slice(document.getElementById("area").selectionStart, document.getElementById("area").selectionEnd)'), "stik");
    await page.type("stick");
    assert.match(await text(page, "verdict"), /^accepted\n/);
    assert.equal(await page.look('document.querySelectorAll("#back mark.fault").length'), 0);
    await page.until('!document.getElementById("can-run").hidden', "the mended script runs");
    await tabTo(page, "clear-store"); // what the first example had stored
    await page.press("Enter");
    assert.match(await text(page, "outcome"), /^exception -104 1 1\n/);
    assert.equal(await page.look('document.querySelector("#back mark.fault").textContent'), "stick");
}

export async function fillsTheStoreAndSlides(page) {
    await tabTo(page, "stick");
    await page.type("60");
    await page.until('document.querySelector("#outcome .row").textContent === "normal 1"', "the reading is taken");
    const after = () => page.look('Array.from(document.querySelectorAll("#cells td.after"), (cell) => cell.textContent).join(" ")');
    assert.equal(await after(), "60 30");
    await page.look("document.activeElement.blur()");
    await tabTo(page, "step");
    await page.press("Home");
    assert.equal(await after(), "60 -");
    assert.equal(await page.look('document.querySelector("#back mark.due").textContent'), "(:= speed (div stick 2))");
    await page.press("ArrowRight");
    assert.equal(await after(), "60 30");
    assert.equal(await page.look('document.querySelector("td.changed").textContent'), "30");
}

export async function slidesThroughEveryStep(page) {
    await chooseExample(page, "ramps");
    const steps = await page.look('Number(document.getElementById("step").max)');
    assert.equal(steps, 9);
    let before = "";
    for (let step = 0; step <= steps; step++) {
        await page.look(`{ const s = document.getElementById("step"); s.value = ${step}; s.dispatchEvent(new Event("input")); }`);
        const seen = await page.look(ROWS), told = drivePrints(["run", "examples/ramps.txt", "--store", "examples/ramps.store", "--budget", String(step)]);
        assert.ok(told.endsWith("\n" + seen), `after ${step} steps:\n${seen}`);
        const changed = await page.look('Array.from(document.getElementById("cells").rows, (row) => row.cells[2].classList.contains("changed"))');
        const others = seen.split("\n").map((row, i) => step > 0 && row !== before.split("\n")[i]).slice(0, -1);
        assert.deepEqual(changed, others, `what step ${step} changed`);
        before = seen;
    }
}

export async function drawsTheCurve(page) {
    await chooseExample(page, "dead-zone");
    const rows = await page.look('Array.from(document.getElementById("curve-table").rows, (row) => [row.cells[0].textContent, row.cells[1].textContent]).slice(1)');
    assert.deepEqual(rows, Array.from({ length: 201 }, (_, i) => i - 100).map((x) => [String(x), String(Math.abs(x) < 8 ? 0 : x)]));
    assert.equal(await page.look('document.querySelector("#curve polyline").getAttribute("points").split(" ").length'), 201);
    await chooseExample(page, "sip-and-puff");
    assert.match(await page.look('document.getElementById("curve-table").innerText || document.getElementById("curve-table").textContent'), /soft_puff\s*30/);
    await writeScript(page, "(type percent (range 0 100))\n(var stick percent)\n(var speed percent)\n(main (:= speed (* stick 2)))\n");
    await page.until('/No value at stick 51 to 100: exception -103\\./.test(document.getElementById("curve-told").textContent)', "readings that end in an exception are told");
    assert.equal(await page.look('document.querySelectorAll("#curve line.gap").length'), 50);
}

export async function holdsReadings(page) {
    await chooseExample(page, "ramp");
    await page.look('{ const p = document.getElementById("curve-periods"); p.value = 10; p.dispatchEvent(new Event("input")); window.desk.settle(); }');
    const rows = await page.look('Array.from(document.getElementById("curve-table").rows, (row) => row.cells[1].textContent).slice(1)');
    assert.deepEqual(rows.map(Number), Array.from({ length: 101 }, (_, wanted) => 12 + Math.max(-10, Math.min(10, wanted - 12))));
    await page.look('{ const p = document.getElementById("curve-periods"); p.value = 1; document.getElementById("next-period").click(); document.getElementById("next-period").click(); }');
    assert.equal(await page.look('document.querySelector("#cells [data-path=speed]").value'), "14");
}

export async function showsEachExampleAsDrive(page) {
    const names = readdirSync("examples").filter((file) => file.endsWith(".txt")).map((file) => file.slice(0, -4));
    assert.deepEqual([...await page.look('Array.from(document.getElementById("example").options, (o) => o.value).slice(1)')].sort(), names.sort());
    for (const name of names) {
        await chooseExample(page, name);
        assert.equal(await text(page, "outcome") + await page.look(ROWS), readFileSync(`examples/${name}.out`, "utf8"), name);
    }
}

export async function opensAndSavesFiles(page) {
    const folder = pageFile.replace(/[^/]*$/, "saved"), here = process.cwd();
    rmSync(folder, { recursive: true, force: true });
    mkdirSync(folder);
    await chrome.send("Browser.setDownloadBehavior", { behavior: "allow", downloadPath: folder });
    await chooseFile(page, "open-script", here + "/examples/ramp.txt");
    await page.until(`document.querySelector("#outcome .row")?.textContent.startsWith("exception -104")`, "the script is open, with nothing stored");
    await chooseFile(page, "open-store", here + "/examples/ramp.store");
    await page.until(`document.querySelector("#outcome .row")?.textContent === "normal 5"`, "the store is open");
    writeFileSync(folder + "/wrong.store", "wanted 5\nsped 6\n");
    await chooseFile(page, "open-store", folder + "/wrong.store");
    await page.until(`document.getElementById("store-told").textContent === "The store is not opened. Line 2: The script has no cell \`sped\`. Did you mean \`speed\`?"`);
    assert.equal(await page.look(ROWS), "wanted 30\nspeed 13\n");
    await page.look('{ document.getElementById("save-script").click(); document.getElementById("save-store").click(); }');
    for (let tries = 0; tries < 100 && !(existsSync(folder + "/ramp.txt") && existsSync(folder + "/ramp.store")); tries++) await new Promise((resolve) => setTimeout(resolve, 50));
    assert.deepEqual(readFileSync(folder + "/ramp.txt"), readFileSync("examples/ramp.txt"));
    assert.equal(readFileSync(folder + "/ramp.store", "utf8"), "wanted 30\nspeed 13\n");
}

export async function mendsAndMarks(page) {
    const lines = "(var a integer)\r\n\t(main (:= a 1) (:= a true))";
    await page.look(`window.desk.take(${JSON.stringify([...Buffer.from(lines)])})`);
    assert.match(await text(page, "verdict"), /^refused 3 1\n/);
    await page.look('document.getElementById("tidy").click()');
    assert.match(await text(page, "verdict"), /^refused 8 2\n/);
    await page.look('{ document.getElementById("machine").value = 1; window.desk.settle(); }');
    assert.match(await text(page, "outcome"), /^stuck 2\nThe marking machine stuck at step 2/);
    await page.look('{ document.getElementById("machine").value = 0; window.desk.settle(); }');
}

export async function isReachedByKeys(page) {
    await chooseExample(page, "speed-limit");
    const wanted = ["example", "open-script", "save-script", "print", "area", "tidy", "machine", "budget", "step", "place", "stick", "next-period", "clear-store",
        "open-store", "save-store", "curve-y", "curve-x", "curve-from", "curve-to", "curve-periods"];
    const met = new Set();
    for (let i = 0; i < 60; i++) {
        met.add(await focused(page));
        await page.press("Tab");
    }
    assert.deepEqual(wanted.filter((id) => !met.has(id)), []);
}

/** The words of the page as it is printed. */
async function printed(page) {
    const file = pageFile.replace(/[^/]*$/, "sheet.pdf");
    writeFileSync(file, await page.pdf());
    return execFileSync("pdftotext", ["-layout", file, "-"], { encoding: "utf8" });
}

export async function prints(page) {
    await chooseExample(page, "dead-zone");
    const words = await printed(page);
    for (const part of [/Fitting sheet/, /accepted/, /The script may be loaded; it has 2 cells\./, /\(call centre\)/, /stick +5 +5/, /speed after one period/, /Date/, /Signature/]) assert.match(words, part);
    assert.doesNotMatch(words, /Open a script/);
    assert.deepEqual(await page.look('Array.from(document.querySelectorAll("#sheet sup"), (n) => n.textContent + n.nextSibling.textContent.slice(0, 7))'),
        ["1(if (an", "2(:= spe", "3(:= spe", "4(call c"]);
    assert.equal(await page.look('document.querySelectorAll("#sheet svg polyline").length'), 1);
    await page.look(`{ window.desk.take(${JSON.stringify([...Buffer.from(WRONG)])}); window.desk.settle(); }`);
    const refused = await printed(page);
    assert.match(refused, /refused 7 4[^]*no chair may load this script/);
    assert.doesNotMatch(refused, /Signature/);
}
