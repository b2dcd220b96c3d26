// Every shared vector through the page: what it shows must be the vector's answer, and its words those of `drive`.
import { execFileSync, spawnSync } from "node:child_process";

const ENOUGH = 10000; // the vectors' budget where they name none
const OF_LEVEL = "import json, sys; sys.dont_write_bytecode = True; sys.path.insert(0, 'tools'); import vectors; print(json.dumps(vectors.of_level()))";

export function readVectors() {
    const rows = JSON.parse(execFileSync("python3", ["-c", OF_LEVEL], { encoding: "utf8", maxBuffer: 1 << 28 }));
    return rows.map(([file, v]) => ({ ...v, name: `${file} ${v.n}`, bytes: "hex" in v ? Buffer.from(v.hex, "hex") : Buffer.from(v.text) }));
}

/** What is asked of a vector: machine, budget, store, and what must be printed. */
export function casesOf(v) {
    const budgets = Object.keys(v).filter((key) => /^run_\d+$/.test(key)).map((key) => ({ marking: 0, budget: Number(key.slice(4)), printed: v[key] }));
    const whole = [{ marking: 0, budget: ENOUGH, printed: v.run, told: "run" }, { marking: 1, budget: ENOUGH, printed: v.mark, told: "mark" }];
    const lent = [["run_store", 0], ["mark_store", 1]].filter(([key]) => key in v)
        .map(([key, marking]) => ({ marking, budget: v.budget, store: v.store, printed: v[key], after: marking ? undefined : v.store_after }));
    return [...budgets, ...whole, ...lent];
}

/** In the page: sets the machine, the budget and the store, and reads what is shown. */
export const ASK = `(bytes, cases) => {
    const at = (id) => document.getElementById(id), d = window.desk;
    const said = (id) => Array.from(at(id).children, (part) => part.textContent + "\\n").join("");
    const rows = (shown) => Array.from(at("cells").rows, (row, i) => shown(row.cells[0].textContent, row.cells[2], i)).join("");
    const plain = () => rows((path, after, i) => (i + 1) + " " + path.split(/[[.]/)[0] + " " + after.dataset.value + "\\n");
    const named = () => rows((path, after) => path + " " + after.textContent + "\\n");
    const shown = () => {
        const row = at("outcome").querySelector(".row"), refused = at("can-run").hidden || row.textContent.startsWith("refused");
        const first = row ? row.textContent + "\\n" : at("verdict").querySelector(".row").textContent + "\\n";
        return { printed: first + (refused ? "" : plain()), told: (row ? said("outcome") : said("verdict")) + (refused ? "" : named()) };
    };
    const lists = (store) => ({ values: store.map(([value]) => BigInt(value)), marks: store.map(([, mark]) => mark) });
    const alike = (a, b) => !a.fault && String(a.values) === String(b.values) && String(a.marks) === String(b.marks);
    const lend = (store) => {
        if (at("can-run").hidden || store.values.length !== d.desk.cells.length) return false;
        const words = d.storeWords(store);
        d.setStart(d.desk.cells.map((cell, i) => [cell.path, words[i]]));
        d.run();
        return alike(d.startStore(), store);
    };
    const direct = (store, { budget, marking }) => ({ printed: d.firstRow(d.desk.library.run(Uint8Array.from(bytes), store, budget, marking).reply) + "\\n", direct: true });
    d.take(bytes);
    const same = String(d.desk.bytes) === String(bytes), verdict = at("verdict").querySelector(".row").textContent, check = said("verdict");
    return { same, verdict, check, answers: cases.map((asked) => {
        at("machine").value = asked.marking;
        at("budget").value = asked.budget;
        d.setStart([]);
        d.run();
        if (!asked.store) return shown();
        const store = lists(asked.store);
        if (!lend(store)) return direct(store, asked);
        const after = d.desk.run.end;
        return { ...shown(), after: after.values.map((value, i) => [Number(value), after.marks[i]]) };
    }) };
}`;

/** What of a page's answer is not the vector's. */
export function faultsOf(v, cases, got) {
    const faults = got.same ? [] : [`${v.name}: the editor changed the bytes`];
    const verdict = v.verdict[0] ? `refused ${v.verdict.join(" ")}` : "accepted";
    if (got.verdict !== verdict) faults.push(`${v.name}: ${got.verdict}, not ${verdict}`);
    cases.forEach((asked, i) => {
        const { printed, after } = got.answers[i], expected = asked.printed;
        const bad = expected === undefined ? !printed.startsWith("refused ") : printed !== expected;
        if (bad) faults.push(`${v.name}, machine ${asked.marking}, budget ${asked.budget}: shown\n${printed}--- and should be\n${expected}`);
        if (asked.after && after && JSON.stringify(after) !== JSON.stringify(asked.after)) faults.push(`${v.name}: another store was left`);
    });
    return faults;
}

const driveSays = (drive, words, bytes) => spawnSync(drive, words, { input: bytes, encoding: "utf8" }).stdout;

/** Where the page's words are not those that `drive` prints. */
export function strangeWords(v, cases, got, drive) {
    const faults = got.check === driveSays(drive, ["check", "-"], v.bytes) ? [] : [`${v.name}: the page says\n${got.check}`];
    cases.forEach((asked, i) => {
        if (asked.told && got.answers[i].told !== driveSays(drive, [asked.told, "-"], v.bytes)) faults.push(`${v.name}, ${asked.told}: the page says\n${got.answers[i].told}`);
    });
    return faults;
}
