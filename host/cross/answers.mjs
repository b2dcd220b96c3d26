// answers.c's twin for drive.wasm: the cases and the answers are described there.
// usage: node answers.mjs DRIVE.WASM CASES OUT
import { readFileSync, writeFileSync } from "node:fs";

const WORK = 16384, TEXT = 32768, CELLS = 2048, SPARE = 8, UNTOUCHED = 0xa5a5a5a5, REPLY = 40, PAGE = 65536;

const [module, casesFile, outFile] = process.argv.slice(2);
const { exports: lib } = (await WebAssembly.instantiate(readFileSync(module))).instance;

// ---- the buffers, above what the library has for itself; each at a multiple of 8
let free = (lib.__heap_base.value + 7) & ~7;
const room = (bytes) => { const at = free; free = (free + bytes + 7) & ~7; return at; };
const at = { reply: room(REPLY), text: room(TEXT + 1), work: room(4 * (WORK + SPARE)), names: room(8 * (CELLS + SPARE)),
    values: room(8 * (CELLS + SPARE)), marks: room(CELLS + SPARE) };
const more = Math.ceil((free - lib.memory.buffer.byteLength) / PAGE);
if (more > 0) lib.memory.grow(more);
const text = new Uint8Array(lib.memory.buffer, at.text, TEXT + 1);
const work = new Uint32Array(lib.memory.buffer, at.work, WORK + SPARE);
const names = new BigUint64Array(lib.memory.buffer, at.names, CELLS + SPARE);
const values = new BigInt64Array(lib.memory.buffer, at.values, CELLS + SPARE);
const marks = new Uint8Array(lib.memory.buffer, at.marks, CELLS + SPARE);

// ---- the cases
const cases = readFileSync(casesFile);
let next = 0;
function readNumber() {
    const from = next;
    while (cases[next] !== 0x20 && cases[next] !== 0x0a) next++;
    return BigInt(cases.toString("latin1", from, next++));
}

function nextCase() {
    const [mark, budget, workLen, namesLen, cells, textLen] = [1, 2, 3, 4, 5, 6].map(readNumber);
    text.set(cases.subarray(next, next + Number(textLen)));
    next += Number(textLen);
    return { mark: mark === 1n, budget: Number(budget), work: workLen, names: namesLen, cells, text: textLen };
}

// ---- a call and what it left
const said = [];
function tell(call, asked, ...rest) {
    work.fill(UNTOUCHED);
    call(at.reply, at.text, asked.text, at.work, asked.work, ...rest);
    const r = new DataView(lib.memory.buffer, at.reply, REPLY);
    const cells = r.getBigUint64(16, true);
    const cleared = asked.work < BigInt(WORK) ? Number(asked.work) : WORK;
    const good = work.every((n, i) => n === (i < cleared ? 0 : UNTOUCHED));
    said.push([r.getUint32(0, true), r.getUint32(4, true), r.getBigUint64(8, true), cells, r.getBigInt64(24, true), r.getUint32(32, true),
        r.getUint32(36, true), good ? 1 : 0].join(" "));
    return cells;
}

function tellNames(asked, cells) {
    const told = Number(cells < asked.names ? cells : asked.names);
    const good = names.subarray(told).every((n) => n === BigInt(UNTOUCHED));
    said.push([...names.subarray(0, told), good ? 1 : 0].join(" "));
}

function lendStore(asked, cells) {
    values.fill(0n);
    marks.fill(0);
    if (asked.cells < 0n) return cells;
    for (let i = 0; i < asked.cells; i++) {
        values[i] = readNumber();
        marks[i] = Number(readNumber());
    }
    return asked.cells;
}

function answer(asked) {
    names.fill(BigInt(UNTOUCHED));
    tell(lib.drive_verdict, asked);
    tell(lib.drive_cells, asked);
    const cells = tell(asked.mark ? lib.drive_mark_owners : lib.drive_owners, asked, at.names, asked.names);
    tellNames(asked, cells);
    const lent = lendStore(asked, cells);
    tell(asked.mark ? lib.drive_mark : lib.drive_run, asked, at.values, lent, at.marks, lent, asked.budget);
    const shown = Math.min(Number(lent) + SPARE, CELLS + SPARE);
    said.push(Array.from({ length: shown }, (_, i) => `${values[i]} ${marks[i]} `).join(""));
}

while (next < cases.length) answer(nextCase());
writeFileSync(outFile, said.join("\n") + "\n");
