// Tests desk.html in a browser as a person uses it, and by every shared vector. usage: node desk.mjs PAGE DRIVE BUILT TEXTS [PICTURES]
import assert from "node:assert/strict";
import { readFileSync, readdirSync, writeFileSync } from "node:fs";
import { openPage } from "./chrome.mjs";
import { ROWS, WRONG, builtFile, chooseExample, chrome, drive, drivePrints, pageFile, pictures, text, textsFolder } from "./hands.mjs";
import * as person from "./person.mjs";
import { ASK, casesOf, faultsOf, readVectors, strangeWords } from "./vectors.mjs";

// ---- what must hold of the page

/** Where the explainer does not know the script's cells, they are shown by number, as `drive --plain` does. */
async function showsCellsByNumber(page) {
    await chooseExample(page, "dead-zone");
    await page.look('{ const w = window.desk.desk.words; w.known = w.cells; w.cells = () => null; window.desk.setStart([["1 stick", "7"]]); window.desk.settle(); }');
    assert.equal(await page.look(ROWS), "1 stick 7\n2 speed 0\n");
    await page.look('{ window.desk.setStart([["1 stick", "101"]]); window.desk.settle(); }');
    assert.match(await text(page, "outcome"), /^refused 11 0\n/);
    await page.look('{ window.desk.setStart([["1 stick", "ten"]]); window.desk.settle(); }');
    assert.equal(await text(page, "outcome"), "Not run: `ten` is no number.\n");
    await page.look('{ window.desk.setStart([]); window.desk.settle(); }');
    assert.equal(await page.look(ROWS), "1 stick -\n2 speed -\n");
    await page.look('{ const w = window.desk.desk.words; w.cells = w.known; window.desk.settle(); }');
    assert.equal(await page.look(ROWS), "stick -\nspeed -\n");
}

/** Nothing that a screen acts on is shown as it is, and no byte is lost. */
async function showsNoControlByte(page) {
    const bytes = [0xef, 0xbb, 0xbf, ...Buffer.from("(main \x1b[31m\x07\x00\x7f\u202e\u2028\u0085\t\r\u241b\u{100041})\n"), 0xff, 0xc3, 0x0a];
    await page.look(`window.desk.take(${JSON.stringify(bytes)})`);
    assert.deepEqual(await page.look("Array.from(window.desk.desk.bytes)"), bytes);
    await page.look("window.desk.settle()");
    const raw = /[\u0000-\u0009\u000b-\u001f\u007f-\u009f\u200b-\u200f\u2028-\u202e\u2060-\u206f\ufeff]/;
    const seen = await page.look('document.getElementById("area").value + document.body.textContent');
    assert.ok(!raw.test(seen.slice(0, 200)) && !raw.test(await page.look('document.getElementById("page").innerText + document.getElementById("sheet").textContent')));
}

// what the place of a letter depends on
const METRICS = ["font", "letterSpacing", "wordSpacing", "lineHeight", "padding", "whiteSpace", "overflowWrap", "wordBreak", "tabSize", "textIndent", "textTransform", "direction"];

/** A mark lies under its word only where the field sets its letters as the lines behind it do, and has nothing to scroll. */
async function fits(page, width) {
    await page.send("Emulation.setDeviceMetricsOverride", { width, height: 800, deviceScaleFactor: 1, mobile: false });
    for (const name of ["ramps", "profiles"]) {
        await chooseExample(page, name);
        const [area, back] = await page.look(`["area", "back"].map((id) => { const e = document.getElementById(id), style = getComputedStyle(e);
            return { high: e.scrollHeight, wide: e.clientWidth, style: ${JSON.stringify(METRICS)}.map((metric) => style[metric]) }; })`);
        assert.ok(await page.look("document.documentElement.scrollWidth") <= width, `${name} is wider than ${width}`);
        assert.deepEqual([area.style, area.wide], [back.style, back.wide]);
        assert.ok(area.high <= back.high, `${name}: the field is ${area.high} high, the lines behind it ${back.high}`);
    }
}

async function saysWhetherProved(page) {
    const isProved = readFileSync(builtFile, "utf8").startsWith("proved");
    const foot = await page.look('document.getElementById("foot").textContent');
    assert.equal(/NOT PROVED/.test(foot), !isProved);
    assert.equal(/compiled from proved code/.test(foot), isProved);
}

/** The page asks for nothing, and its own policy would stop it; that a request is noticed is tried on an empty page. */
async function sendsNothing(page) {
    const stopped = (url) => page.look(`new Promise((resolve) => {
        addEventListener("securitypolicyviolation", (event) => resolve(event.effectiveDirective), { once: true });
        fetch("${url}").then(() => resolve("sent"), () => setTimeout(() => resolve("not stopped by the policy"), 500)); // the policy is heard first
    })`);
    assert.equal(await stopped("http://example.com/"), "connect-src");
    assert.equal(await stopped("file:///etc/hostname"), "connect-src");
    assert.deepEqual(page.requests.filter((url) => url !== "file://" + pageFile && !url.startsWith("blob:")), []);
    assert.deepEqual(page.faults, []);
    const empty = await openPage(chrome, "data:text/html,", 400);
    await empty.look('fetch("http://example.com/").catch(() => {})');
    assert.ok(empty.requests.includes("http://example.com/"));
}

// ---- the vectors

async function answersTheVectors(page) {
    const all = readVectors(), faults = [];
    let asked = 0, direct = 0;
    for (const v of all) {
        const cases = casesOf(v), plain = cases.map(({ marking, budget, store }) => ({ marking, budget, store }));
        const got = await page.look(`(${ASK})(${JSON.stringify([...v.bytes])}, ${JSON.stringify(plain)})`);
        faults.push(...faultsOf(v, cases, got), ...strangeWords(v, cases, got, drive));
        asked += cases.length;
        direct += got.answers.filter((answer) => answer.direct).length;
        // an answer that is changed must be noticed
        if (v === all[0]) assert.equal(faultsOf({ ...v, verdict: [4, 9] }, cases, got).length, 1);
    }
    assert.deepEqual(faults.slice(0, 3), [], `${faults.length} differ`);
    console.log(`${all.length} vectors, ${asked} runs through the page, ${direct} of them with a store that its fields cannot hold; all as the vectors say, and in drive's words`);
}

/** The texts that take most stack, by both machines: the browser's own stack must do. */
async function bearsTheWorstTexts(page) {
    const files = readdirSync(textsFolder), slow = [];
    assert.ok(files.length > 5);
    for (const file of files) {
        const bytes = readFileSync(`${textsFolder}/${file}`), cases = [0, 1].map((marking) => ({ marking, budget: 1000 }));
        const got = await page.look(`(() => { const from = performance.now(), got = (${ASK})(${JSON.stringify([...bytes])}, ${JSON.stringify(cases)}); return { ...got, ms: performance.now() - from }; })()`);
        slow.push(got.ms);
        assert.equal(got.check, drivePrints(["check", `${textsFolder}/${file}`]), file);
        cases.forEach(({ marking, budget }, i) =>
            assert.equal(got.answers[i].told, drivePrints([marking ? "mark" : "run", `${textsFolder}/${file}`, "--budget", String(budget)]), file));
    }
    console.log(`${files.length} texts, the slowest in ${Math.max(...slow).toFixed(0)} ms for verdict, run and marking`);
}

/** A call that the browser cuts off leaves nothing old on the page, and the next key works again. */
async function recovers(page) {
    await chooseExample(page, "dead-zone");
    await page.look('{ window.desk.desk.library.verdict = () => { throw new RangeError("no stack"); }; document.getElementById("area").dispatchEvent(new Event("input")); }');
    assert.match(await text(page, "verdict"), /nothing is known of this script[^]*no stack/);
    assert.ok(await page.look('document.getElementById("can-run").hidden && document.getElementById("sheet").textContent === ""'));
    await page.look('{ document.getElementById("area").dispatchEvent(new Event("input")); window.desk.settle(); }');
    assert.match(await text(page, "outcome"), /^normal 3\n/);
}

// ---- the guide's pictures

async function takePictures(page) {
    await page.send("Emulation.setDeviceMetricsOverride", { width: 520, height: 800, deviceScaleFactor: 1, mobile: false });
    await page.look(`{ window.desk.take(${JSON.stringify([...Buffer.from(WRONG)])}); window.desk.settle(); }`);
    writeFileSync(pictures + "/desk-fault.png", await page.picture("#script-part"));
    await page.send("Emulation.setDeviceMetricsOverride", { width: 1040, height: 800, deviceScaleFactor: 1, mobile: false });
    await page.look('{ document.getElementById("machine").value = 0; document.getElementById("budget").value = 10000; }');
    await chooseExample(page, "dead-zone");
    await page.look('{ const s = document.getElementById("step"); s.value = 2; s.dispatchEvent(new Event("input")); document.activeElement.blur(); }');
    writeFileSync(pictures + "/desk.png", await page.picture("main"));
}

const fitsAllWidths = async (page) => { for (const width of [360, 700, 1400]) await fits(page, width); };
const TESTS = [person.typesAndSeesTheMark, person.fillsTheStoreAndSlides, person.slidesThroughEveryStep, person.drawsTheCurve, person.holdsReadings, person.showsEachExampleAsDrive,
    person.opensAndSavesFiles, person.mendsAndMarks, person.isReachedByKeys, person.prints, showsNoControlByte, saysWhetherProved, showsCellsByNumber, recovers,
    answersTheVectors, bearsTheWorstTexts, fitsAllWidths, sendsNothing];

try {
    const page = await openPage(chrome, "file://" + pageFile, 1200);
    await page.until("!!window.desk", "the desk has started");
    for (const test of TESTS) {
        await test(page);
        console.log("passed: " + test.name);
    }
    if (pictures) await takePictures(page);
} finally {
    await chrome.close();
}
