// The explainer, words.wasm: what is said of an answer, in the words of `drive`.

/** A function that asks about a text and what lies behind it; the answer is JSON. */
function asker(lib) {
    return (name, bytes, behind, ...numbers) => {
        const at = lib.room(bytes.length + behind.length);
        const room = new Uint8Array(lib.memory.buffer, at, bytes.length + behind.length);
        room.set(bytes);
        room.set(behind, bytes.length);
        const length = lib[name](bytes.length, ...numbers);
        return JSON.parse(new TextDecoder().decode(new Uint8Array(lib.memory.buffer, lib.said(), length)));
    };
}

function packed(store) {
    const values = new Uint8Array(BigInt64Array.from(store.values).buffer);
    return Uint8Array.from([...values, ...store.marks]);
}

function openWords(lib) {
    const ask = asker(lib);

    /** Of a refusal the number, of a run's end all that the library answers. */
    function ended(bytes, store, budget, reply, marking) {
        const cells = store.values.length;
        if (reply.refusal >= 10) return ask("store_refusal", bytes, packed(store), cells, reply.refusal, marking);
        return ask("ended", bytes, packed(store), cells, budget, reply.outcome, reply.exception, reply.statement, reply.steps, marking);
    }

    function readStore(bytes, file, marking) {
        const read = ask("read_store", bytes, new TextEncoder().encode(file), marking);
        return read && read.values ? { values: read.values.map(BigInt), marks: read.marks } : { fault: read };
    }

    return {
        ended, readStore,
        accepted: (cells) => ask("accepted", [], [], cells),
        refusal: (bytes, reply, marking) => ask("refusal", bytes, [], reply.refusal, reply.line, marking),
        cells: (bytes, marking) => ask("cells", bytes, [], marking),
        rows: (bytes, store, marking) => ask("rows", bytes, packed(store), store.values.length, marking),
        statements: (bytes, marking) => ask("statements", bytes, [], marking),
        tidy: (bytes) => ask("tidy", bytes, []),
    };
}
