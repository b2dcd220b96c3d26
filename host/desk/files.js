// Examples, and files of this computer: read and written by the browser, sent nowhere.

const MOST_BYTES = 1 << 20;

function download(name, content) {
    const link = make("a", { download: name, href: URL.createObjectURL(new Blob([content], { type: "text/plain" })) });
    link.click();
    setTimeout(() => URL.revokeObjectURL(link.href), 1000);
}

/** Takes a script, and what is stored before its first period. */
function takeScript(desk, name, bytes, store) {
    desk.name = name;
    el("example").value = "";
    setStart(desk, pairsOf(store));
    el("step").value = el("step").max;
    el("tidied").textContent = "";
    desk.editor.set(shown(bytes));
    desk.kept = desk.editor.signs();
}

function openScript(desk, name, bytes, store) {
    takeScript(desk, name, bytes, store);
    settle(desk);
}

/** May the text in the editor go? What is not saved is asked about. */
function mayLeave(desk) {
    return desk.editor.signs() === desk.kept || confirm("The script in the editor is not saved. Replace it?");
}

function saveScript(desk) {
    download(desk.name, desk.bytes);
    desk.kept = desk.editor.signs();
}

async function openFile(field, take) {
    const file = field.files[0];
    field.value = "";
    if (file) take(file.name, new Uint8Array(await file.slice(0, MOST_BYTES).arrayBuffer()));
}

function openExample(desk, name) {
    const example = DESK.examples.find((e) => e.name === name);
    if (!example || !mayLeave(desk)) return;
    openScript(desk, name + ".txt", new TextEncoder().encode(example.text), example.store);
    el("example").value = name;
}

/** A store file, read as `drive` reads it; one that does not fit changes nothing. */
function openStore(desk, bytes) {
    const file = new TextDecoder().decode(bytes); // an editor's mark at its start goes here
    const read = el("can-run").hidden || !desk.named ? null : desk.words.readStore(desk.bytes, file, desk.marking);
    if (read && !read.fault) {
        const words = storeWords(desk, read);
        setStart(desk, desk.cells.map((cell, i) => [cell.path, words[i]]));
        settle(desk);
    }
    if (!read) el("store-told").textContent = "The store is not opened: the script's names are not known.";
    else if (read.fault) el("store-told").textContent = `The store is not opened. Line ${read.fault.line}: ${read.fault.found} ${read.fault.hint}`;
}

function saveStore(desk) {
    if (!desk.run || desk.run.reply.refusal) return;
    const words = storeWords(desk, desk.run.end);
    download(desk.name.replace(/\.[^.]*$/, "") + ".store", desk.cells.map((cell, i) => `${cell.path} ${words[i]}\n`).join(""));
}
