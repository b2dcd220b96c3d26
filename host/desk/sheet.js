// The fitting sheet: what is printed in place of the page.

const LINES = ["Client", "Chair and serial number", "Therapist", "Date", "Signature"];

/** A line of the script with the number of each statement before its bracket. */
function numberedLine(line, start, statements) {
    const parts = [];
    let at = 0;
    for (const [number, place] of statements) {
        if (place < start || place >= start + line.length) continue;
        parts.push(line.slice(at, place - start), make("sup", {}, String(number)));
        at = place - start;
    }
    return make("li", {}, ...parts, line.slice(at));
}

function sheetScript(desk) {
    const signs = desk.editor.signs(), marking = desk.verdict.refusal ? 1 : 0;
    const statements = desk.words.statements(desk.bytes, marking).map(([number, start]) => [number, desk.places[start]]);
    let start = 0;
    const lines = signs.replace(/\n$/, "").split("\n").map((line) => {
        const drawn = numberedLine(line, start, statements);
        start += line.length + 1;
        return drawn;
    });
    return make("ol", { class: "lines" }, ...lines);
}

function sheetVerdict(desk) {
    const box = make("div", {});
    drawSaid(box, desk.verdict.refusal ? "bad" : "good", desk.verdict.refusal ? firstRow(desk.verdict) : "accepted", desk.verdictSaid.lines);
    return box;
}

function sheetStore(desk) {
    if (!desk.run || desk.run.reply.refusal) return [];
    const before = storeWords(desk, desk.run.start), after = storeWords(desk, desk.run.end);
    const by = desk.marking ? " by the marking machine" : "";
    const title = make("p", {}, `One period${by}: ${firstRow(desk.run.reply)}. ${desk.run.said.lines[0]}`);
    const head = make("tr", {}, ...["Name", "Before", "After"].map((word) => make("th", { scope: "col" }, word)));
    const rows = desk.cells.map((cell, i) => make("tr", {}, make("th", { scope: "row" }, cell.path), make("td", {}, before[i]), make("td", {}, after[i])));
    return [make("h2", {}, "What is stored"), title, make("table", {}, make("thead", {}, head), make("tbody", {}, ...rows))];
}

function sheetCurve(desk) {
    if (!desk.curve || !desk.curve.points.some((p) => p.value !== null)) return [];
    return [make("div", { class: "whole" }, make("h2", {}, "Curve"), drawChart(desk.curve, 640), make("p", {}, curveTold(desk.curve).join(" ")))];
}

/** The day where the page is open, as 2026-11-17. */
function today() {
    const now = new Date(), two = (n) => String(n).padStart(2, "0");
    return `${now.getFullYear()}-${two(now.getMonth() + 1)}-${two(now.getDate())}`;
}

/** Lines to fill in; a script that no chair loads has nothing to be signed. */
function sheetLines(desk) {
    if (desk.verdict.refusal) return make("p", { class: "fault-words" }, "Refused: no chair may load this script. There is nothing to sign.");
    return make("dl", { class: "whole" }, ...LINES.map((word) => make("div", {}, make("dt", {}, word), make("dd", {}))));
}

function drawSheet(desk) {
    el("sheet").replaceChildren(
        make("h1", {}, "Fitting sheet"), make("p", {}, `${desk.name}, printed on ${today()}`),
        make("h2", {}, "Verdict"), sheetVerdict(desk), make("p", { class: DESK.proved ? "" : "fault-words" }, DESK.said),
        make("h2", {}, "Script"), make("p", {}, "Lines are numbered at the left, statements by the small numbers."), sheetScript(desk),
        ...sheetStore(desk), ...sheetCurve(desk), sheetLines(desk));
}
