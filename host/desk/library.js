// The library, drive.wasm: what include/drive.h says, of lists that lie in its memory above what it has for itself.

const WORK = 16384, TEXT = 32768, CELLS = 2048, REPLY = 40, PAGE = 65536;
const OUTCOMES = ["normal", "exception", "spent", "stuck"];

/** Where the lists lie; one cell more than a script can have, so that a store which is too long can be lent and refused. */
function listPlaces(lib) {
    let free = lib.__heap_base.value;
    const room = (bytes) => { const at = (free + 7) & ~7; free = at + bytes; return at; };
    const at = { reply: room(REPLY), text: room(TEXT + 1), work: room(4 * WORK), names: room(8 * CELLS), values: room(8 * (CELLS + 1)), marks: room(CELLS + 1) };
    const more = Math.ceil((free - lib.memory.buffer.byteLength) / PAGE);
    if (more > 0) lib.memory.grow(more);
    return at;
}

function openLibrary(lib) {
    const at = listPlaces(lib), view = (List, from, length) => new List(lib.memory.buffer, from, length);

    /** Calls a function on a text; of one that is too long, one byte too many is enough for its refusal. */
    function call(name, bytes, ...rest) {
        const length = Math.min(bytes.length, TEXT + 1);
        view(Uint8Array, at.text, TEXT + 1).set(bytes.subarray(0, length));
        lib["drive_" + name](at.reply, at.text, BigInt(length), at.work, BigInt(WORK), ...rest);
        const r = new DataView(lib.memory.buffer, at.reply, REPLY);
        return { refusal: r.getUint32(0, true), outcome: r.getUint32(4, true), line: Number(r.getBigUint64(8, true)), cells: Number(r.getBigUint64(16, true)),
            exception: Number(r.getBigInt64(24, true)), statement: r.getUint32(32, true), steps: r.getUint32(36, true) };
    }

    /** The variables' names, one for each cell, of a text that the machine takes. */
    function owners(bytes, marking) {
        const reply = call(marking ? "mark_owners" : "owners", bytes, at.names, BigInt(CELLS));
        if (reply.refusal) return { reply, names: [] };
        const names = Array.from(view(BigUint64Array, at.names, reply.cells), (from) => {
            const rest = bytes.subarray(Number(from));
            const end = rest.findIndex((b) => b === 0x20 || b === 0x28 || b === 0x29 || b === LINE_FEED);
            return new TextDecoder().decode(end < 0 ? rest : rest.subarray(0, end)).toLowerCase();
        });
        return { reply, names };
    }

    /** Runs a text on a copy of a store, a list of BigInts and one of marks. */
    function run(bytes, store, budget, marking) {
        const cells = store.values.length;
        const values = view(BigInt64Array, at.values, cells), marks = view(Uint8Array, at.marks, cells);
        values.set(store.values);
        marks.set(store.marks);
        const lent = [at.values, BigInt(cells), at.marks, BigInt(cells), budget];
        const reply = call(marking ? "mark" : "run", bytes, ...lent);
        return { reply, store: { values: Array.from(values), marks: Array.from(marks) } };
    }

    return { verdict: (bytes) => call("cells", bytes), owners, run };
}

/** The row that `drive` prints first of an answer. */
function firstRow(reply) {
    if (reply.refusal) return `refused ${reply.refusal} ${reply.line}`;
    const told = reply.outcome === 1 ? [reply.exception, reply.statement] : [];
    return [OUTCOMES[reply.outcome], ...told, reply.steps].join(" ");
}
