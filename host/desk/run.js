// A period: the whole run, and the store after each of its steps.

const NOTES = ["", "It also runs a script whose kinds do not fit, until it meets the place. No chair runs by it."];

/** Runs the text on what is stored, and shows how it ended. */
function runAll(desk) {
    desk.marking = Number(el("machine").value);
    desk.budget = numberOf(el("budget"), 0);
    desk.run = null;
    el("machine-note").textContent = NOTES[desk.marking];
    const { reply, names } = desk.library.owners(desk.bytes, desk.marking);
    el("can-run").hidden = reply.refusal !== 0;
    if (reply.refusal) return drawNotTaken(desk, reply);
    Object.assign(desk, cellsOf(desk, names));
    drawCells(desk);
    const start = startStore(desk);
    if (!start.fault) {
        const done = desk.library.run(desk.bytes, start, desk.budget, desk.marking);
        desk.run = { start, end: done.store, reply: done.reply, said: desk.words.ended(desk.bytes, start, desk.budget, done.reply, desk.marking) };
    }
    drawOutcome(desk, start.fault);
}

function drawOutcome(desk, fault) {
    markField(fault);
    el("store-told").textContent = "";
    const { reply, said } = desk.run ?? { reply: { refusal: -1 } };
    if (fault) drawSaid(el("outcome"), "bad", "", ["Not run: " + fault.told]);
    else drawSaid(el("outcome"), firstRow(reply).startsWith("normal") ? "good" : "bad", firstRow(reply), said.lines);
    el("steps").hidden = reply.refusal !== 0;
    if (reply.refusal) return clearStep(desk);
    fitSlider(desk);
    drawStep(desk);
}

/** A text that the machine does not take. What the verdict has said already is not said twice. */
function drawNotTaken(desk, reply) {
    const { lines } = desk.words.refusal(desk.bytes, reply, desk.marking);
    const same = firstRow(reply) === firstRow(desk.verdict) && String(lines) === String(desk.verdictSaid.lines);
    drawSaid(el("outcome"), "bad", same ? "" : firstRow(reply), same ? ["Not run: the script is refused."] : lines);
}

function markField(fault) {
    el("cells").querySelectorAll("input, select").forEach((field, i) => {
        if (fault && fault.cell === i) field.setAttribute("aria-invalid", "true");
        else field.removeAttribute("aria-invalid");
    });
}

/** Of a period that was not run nothing is shown. */
function clearStep(desk) {
    drawSaid(el("due"), "", "", []);
    desk.editor.mark("run", []);
    el("cells").querySelectorAll("td.after").forEach((place) => {
        place.textContent = "";
        place.classList.remove("changed");
    });
}

/** The slider goes as far as the run; where it was at the end it stays there. */
function fitSlider(desk) {
    const slider = el("step"), wasAtEnd = slider.value === slider.max;
    slider.max = String(desk.run.reply.steps);
    if (wasAtEnd) slider.value = slider.max;
}

/** The store after the slider's step, what that step changed, and the statement that is due. */
function drawStep(desk) {
    if (!desk.run || desk.run.reply.refusal) return;
    const { start, end, reply, said } = desk.run;
    const step = Number(el("step").value), isEnd = step >= reply.steps;
    const after = (steps) => desk.library.run(desk.bytes, start, steps, desk.marking);
    const now = isEnd ? { store: end, reply } : after(step);
    el("step-told").textContent = `${step} of ${reply.steps}`;
    el("after-title").textContent = isEnd ? "After" : step === 1 ? "After 1 step" : `After ${step} steps`;
    drawAfter(desk, now.store, step > 0 ? after(step - 1).store : start);
    const due = isEnd ? said : desk.words.ended(desk.bytes, start, step, now.reply, desk.marking);
    // of a run that is only watched, neither its end nor a cure is due
    drawSaid(el("due"), "", "", isEnd ? [] : due.lines.slice(1).filter((line) => line !== due.hint));
    desk.editor.mark("run", marksOf(desk, due, isEnd ? "fault" : "due"));
    el("to-fault").disabled = !due.span && !desk.verdictSaid.span;
}

function drawAfter(desk, store, before) {
    const words = storeWords(desk, store);
    el("cells").querySelectorAll("td.after").forEach((place, i) => {
        place.textContent = words[i];
        place.dataset.value = store.marks[i] === 1 ? String(store.values[i]) : "-";
        place.classList.toggle("changed", store.values[i] !== before.values[i] || store.marks[i] !== before.marks[i]);
    });
}

/** What is stored after the period is there before the next. */
function nextPeriod(desk) {
    if (!desk.run || desk.run.reply.refusal) return;
    const words = storeWords(desk, desk.run.end);
    setStart(desk, desk.cells.map((cell, i) => [cell.path, words[i]]));
}
