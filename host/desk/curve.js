// The curve: one variable after the period, for each reading of another.

const MOST_POINTS = 401, MOST_TIME = 1500, USUAL = [0, 100];

const isWide = (cell) => cell.bounds[1] - cell.bounds[0] > 1000000;

/** The two lists of variables, with the choice that was made, or what a stick and a speed are called. */
function drawChoices(desk) {
    const cells = desk.cells.map((cell, i) => ({ ...cell, i })).filter((cell) => cell.bounds);
    const key = JSON.stringify(cells);
    if (key === desk.drawnChoices) return;
    desk.drawnChoices = key;
    const choose = (select, usual, otherwise) => {
        const chosen = cells.find((cell) => cell.path === select.value) ?? cells.find((cell) => cell.path === usual) ?? otherwise;
        select.replaceChildren(...cells.map((cell) => make("option", { value: cell.path }, cell.path)));
        if (chosen) select.value = chosen.path;
    };
    choose(el("curve-x"), "stick", cells[0]);
    choose(el("curve-y"), "speed", cells[cells.length - 1]);
    fitReadings(desk);
}

/** The readings that are asked for: those that the variable can have. */
function fitReadings(desk) {
    const cell = desk.cells.find((c) => c.path === el("curve-x").value);
    if (!cell) return;
    const usual = isWide(cell) ? USUAL : cell.bounds;
    [["curve-from", usual[0]], ["curve-to", usual[1]]].forEach(([id, value]) => {
        Object.assign(el(id), { min: cell.bounds[0], max: cell.bounds[1], value });
        el(id).parentElement.hidden = cell.names.length > 0; // of names all are asked
    });
}

/** The readings, at most MOST_POINTS of them, the last always among them. */
function readingsOf() {
    const from = numberOf(el("curve-from"), 0), to = Math.max(from, numberOf(el("curve-to"), 0));
    const stride = Math.max(1, Math.ceil((to - from) / (MOST_POINTS - 1)));
    const list = [];
    for (let reading = from; reading < to; reading += stride) list.push(reading);
    return { list: [...list, to], stride };
}

/** Runs some periods with a reading held; the last answer, and the store after it. */
function holdReading(desk, x, reading, periods) {
    let store = desk.run.start, done = null;
    for (let period = 0; period < periods; period++) {
        const lent = { values: [...store.values], marks: [...store.marks] };
        lent.values[x] = BigInt(reading);
        lent.marks[x] = 1;
        done = desk.library.run(desk.bytes, lent, desk.budget, desk.marking);
        if (done.reply.refusal || done.reply.outcome !== 0) break;
        store = done.store;
    }
    return done;
}

function pointOf(desk, x, y, reading, periods) {
    const { reply, store } = holdReading(desk, x, reading, periods);
    const row = firstRow(reply);
    if (!row.startsWith("normal")) return { reading, value: null, told: row.split(" ").slice(0, 2).join(" ") };
    return store.marks[y] === 1 ? { reading, value: Number(store.values[y]) } : { reading, value: null, told: "nothing stored" };
}

/** The points of the curve; nothing where the script does not run. */
function curvePoints(desk) {
    const at = (id) => desk.cells.findIndex((cell) => cell.path === el(id).value);
    const x = at("curve-x"), y = at("curve-y"), until = performance.now() + MOST_TIME;
    if (!desk.run || x < 0 || y < 0) return null;
    const { list, stride } = readingsOf(), periods = numberOf(el("curve-periods"), 1);
    const points = [];
    for (const reading of list) {
        if (performance.now() > until) break;
        points.push(pointOf(desk, x, y, reading, periods));
    }
    return { x: desk.cells[x], y: desk.cells[y], points, stride, periods, left: list.length - points.length, now: presentReading(desk, x) };
}

function presentReading(desk, x) {
    return desk.run.start.marks[x] === 1 ? Number(desk.run.start.values[x]) : null;
}

const valueWord = (cell, value) => cell.names[value - cell.bounds[0]] ?? String(value);

/** Where there is no value, in sentences: neighbours with the same answer are told together. */
function gapsTold({ x, points }) {
    const groups = [];
    for (const point of points) {
        const last = groups[groups.length - 1];
        if (last && last.told === point.told) last.to = point.reading;
        else groups.push({ told: point.told, from: point.reading, to: point.reading });
    }
    const word = ({ from, to }) => (from === to ? valueWord(x, from) : `${valueWord(x, from)} to ${valueWord(x, to)}`);
    return groups.filter((group) => group.told).map((group) => `No value at ${x.path} ${word(group)}: ${group.told}.`);
}

function curveTold(curve) {
    const { x, y, stride, periods, left } = curve;
    const what = `${y.path} after ${periods === 1 ? "one period" : periods + " periods"}, for each ${stride === 1 ? "" : stride + "th "}reading of ${x.path}; all else as stored before the period.`;
    return [what, ...gapsTold(curve), ...(left ? [`${left} readings are left out: the script takes too long. Allow fewer steps.`] : [])];
}

function drawCurve(desk) {
    desk.curve = el("can-run").hidden ? null : curvePoints(desk);
    const curve = desk.curve;
    if (!curve || curve.points.length === 0) {
        el("curve").replaceChildren();
        el("curve-table").replaceChildren();
        el("curve-told").textContent = "No curve: the script does not run, or has no number or name to show.";
        return;
    }
    el("curve").replaceChildren(...(curve.points.some((p) => p.value !== null) ? [drawChart(curve, el("curve").clientWidth)] : []));
    el("curve-told").replaceChildren(...curveTold(curve).map((line) => make("span", {}, line + " ")));
    el("curve-table").replaceChildren(
        make("tr", {}, make("th", { scope: "col" }, curve.x.path), make("th", { scope: "col" }, curve.y.path)),
        ...curve.points.map(({ reading, value, told }) =>
            make("tr", {}, make("td", {}, valueWord(curve.x, reading)), make("td", {}, told ?? valueWord(curve.y, value)))));
}
