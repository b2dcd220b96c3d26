// What is stored before the period: a field for each cell by its name. `desk.start` keeps the words by name while the script is changed.

const INTEGERS = [-2147483648, 2147483647];

/** The cells by name where the explainer finds those that the library has; else by number. */
function cellsOf(desk, owners) {
    const cells = desk.words.cells(desk.bytes, desk.marking);
    const named = cells !== null && cells.length === owners.length && cells.every((cell, i) => cell.owner === owners[i]);
    const numbered = () => owners.map((owner, i) => ({ owner, path: `${i + 1} ${owner}`, bounds: INTEGERS, names: [] }));
    return { named, cells: named ? cells : numbered() };
}

function fieldOf(desk, cell) {
    const word = desk.start.get(cell.path) ?? "";
    const attributes = { "aria-label": cell.path + " before the period", "data-path": cell.path };
    if (cell.names.length === 0) {
        const field = make("input", { ...attributes, type: "text", placeholder: "-", autocomplete: "off", autocapitalize: "off", spellcheck: "false" });
        field.value = safe(word);
        return field;
    }
    const names = cell.names.includes(word) || word === "" ? cell.names : [...cell.names, word];
    const field = make("select", attributes, make("option", { value: "" }, "-"), ...names.map((name) => make("option", { value: name }, safe(name))));
    field.value = word;
    return field;
}

/** Draws the table anew where the cells or the words in the fields are others. */
function drawCells(desk) {
    const key = JSON.stringify([desk.cells, desk.filled]);
    if (key === desk.drawnCells) return;
    desk.drawnCells = key;
    el("cells").replaceChildren(...desk.cells.map((cell) =>
        make("tr", {}, make("th", { scope: "row" }, cell.path), make("td", {}, fieldOf(desk, cell)), make("td", { class: "after" }))));
}

/** The store before the period as lists, or what is wrong with a field. */
function startStore(desk) {
    const words = desk.cells.map((cell) => (desk.start.get(cell.path) ?? "").trim() || "-");
    if (!desk.named) return numberedStore(desk, words);
    const read = desk.words.readStore(desk.bytes, desk.cells.map((cell, i) => `${cell.path} ${words[i]}\n`).join(""), desk.marking);
    return read.fault ? { fault: { cell: read.fault.line - 1, told: `${read.fault.found} ${read.fault.hint}` } } : read;
}

function numberedStore(desk, words) {
    const wrong = words.findIndex((word) => !/^-?\d{1,18}$|^-$/.test(word));
    if (wrong >= 0) return { fault: { cell: wrong, told: `\`${safe(words[wrong])}\` is no number.` } };
    return { values: words.map((word) => (word === "-" ? 0n : BigInt(word))), marks: words.map((word) => (word === "-" ? 0 : 1)) };
}

/** The words for each cell of a store. */
function storeWords(desk, store) {
    const word = (value, i) => (store.marks[i] === 1 ? String(value) : "-");
    if (!desk.named) return store.values.map(word);
    return desk.words.rows(desk.bytes, store, desk.marking).split("\n").slice(0, -1).map((row) => row.slice(row.indexOf(" ") + 1));
}

/** Puts words into the fields, in place of all that are there. */
function setStart(desk, pairs) {
    desk.start = new Map(pairs.filter(([, word]) => word !== "-"));
    desk.filled += 1;
}

/** The lines `NAME VALUE` of a store file. */
function pairsOf(file) {
    const lines = file.replace(/^\ufeff/, "").split("\n").map((line) => line.trim()).filter((line) => line !== "");
    return lines.map((line) => [line.split(" ", 1)[0].toLowerCase(), line.slice(line.split(" ", 1)[0].length).trim()]);
}
