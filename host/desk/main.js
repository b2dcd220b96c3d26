// The desk: what is on the page follows the text, the store and the choices. The verdict is at once, all else when the typing pauses.

const PAUSE = 120;

/** Brings all that depends on the text and the store up to date. */
function settle(desk) {
    clearTimeout(desk.later);
    guarded(desk, () => {
        runAll(desk);
        if (desk.run) drawChoices(desk);
        drawCurve(desk);
        drawSheet(desk);
    });
}

function settleLater(desk) {
    clearTimeout(desk.later);
    desk.later = setTimeout(() => settle(desk), PAUSE);
}

function typed(desk) {
    guarded(desk, () => judge(desk));
    settleLater(desk);
}

/** Where the browser gives too little stack or memory, nothing is known, and nothing old may stand there; both modules are opened anew, as a call that was cut off leaves them. */
function guarded(desk, work) {
    try {
        work();
    } catch (error) {
        openBoth(desk);
        desk.run = null;
        const lines = ["This browser could not work it out, so nothing is known of this script. Try another browser, or `drive`.", String(error)];
        ["verdict", "outcome"].forEach((id) => drawSaid(el(id), "bad", "", lines));
        ["curve", "curve-table", "curve-told", "sheet"].forEach((id) => el(id).replaceChildren());
        el("can-run").hidden = true;
    }
}

function listenToFiles(desk) {
    el("example").addEventListener("change", (event) => openExample(desk, event.target.value));
    el("open-script").addEventListener("change", (event) => openFile(event.target, (name, bytes) => mayLeave(desk) && openScript(desk, name, bytes, "")));
    el("save-script").addEventListener("click", () => saveScript(desk));
    el("open-store").addEventListener("change", (event) => openFile(event.target, (_, bytes) => openStore(desk, bytes)));
    el("save-store").addEventListener("click", () => saveStore(desk));
    el("print").addEventListener("click", () => { settle(desk); window.print(); });
}

function listenToRun(desk) {
    const then = (act) => () => { act(desk); settle(desk); };
    el("cells").addEventListener("input", (event) => {
        desk.start.set(event.target.dataset.path, event.target.value);
        settleLater(desk);
    });
    for (const id of ["machine", "budget", "curve-y", "curve-from", "curve-to", "curve-periods"]) el(id).addEventListener("input", () => settleLater(desk));
    el("curve-x").addEventListener("input", then(fitReadings));
    el("step").addEventListener("input", () => guarded(desk, () => drawStep(desk)));
    el("next-period").addEventListener("click", then(nextPeriod));
    el("clear-store").addEventListener("click", then(() => setStart(desk, [])));
    el("tidy").addEventListener("click", then(tidyText));
    el("to-fault").addEventListener("click", () => desk.editor.goToMark());
    document.addEventListener("keydown", (event) => { if (event.key === "F8") desk.editor.goToMark(); });
    window.addEventListener("resize", () => settleLater(desk));
    window.addEventListener("beforeunload", (event) => { if (desk.editor.signs() !== desk.kept) event.preventDefault(); });
}

function drawFrame() {
    el("example").append(...DESK.examples.map(({ name }) => make("option", { value: name }, name)));
    el("foot").append(make("p", { class: DESK.proved ? "" : "fault-words" }, DESK.said),
        make("p", {}, "This page works without a network and sends nothing. Nothing is kept when you close it: save the script and the store."));
}

const compiled = (base64) => WebAssembly.compile(Uint8Array.from(atob(base64), (sign) => sign.charCodeAt(0)));

function openBoth(desk) {
    desk.library = openLibrary(new WebAssembly.Instance(desk.modules[0]).exports);
    desk.words = openWords(new WebAssembly.Instance(desk.modules[1]).exports);
}

/** What host/desk-test calls beside the keys that it presses: scripts of any bytes, and no waiting. */
function forTests(desk) {
    const run = () => { clearTimeout(desk.later); guarded(desk, () => runAll(desk)); };
    const take = (bytes) => { takeScript(desk, "script.txt", Uint8Array.from(bytes), ""); run(); };
    return { desk, take, run, settle: () => settle(desk), startStore: () => startStore(desk), setStart: (pairs) => setStart(desk, pairs),
        storeWords: (store) => storeWords(desk, store), firstRow };
}

async function start() {
    drawFrame();
    const modules = await Promise.all([compiled(DESK.library), compiled(DESK.words)]);
    const desk = { modules, start: new Map(), cells: [], filled: 0, name: "script.txt", kept: "" };
    openBoth(desk);
    desk.editor = openEditor(el("area"), el("back"), () => typed(desk));
    listenToFiles(desk);
    listenToRun(desk);
    openExample(desk, DESK.examples[0].name);
    window.desk = forTests(desk);
}

start().catch((error) => { el("verdict").textContent = "The desk cannot start in this browser: " + error; });
