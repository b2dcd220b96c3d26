// The live verdict: may a chair load the text, and if not, where and why.

/** Judges the text in the editor, and marks the faulty word. */
function judge(desk) {
    const { bytes, places } = bytesOf(desk.editor.signs());
    const reply = desk.library.verdict(bytes);
    Object.assign(desk, { bytes, places, verdict: reply });
    if (reply.refusal) {
        desk.verdictSaid = desk.words.refusal(bytes, reply, 0);
        drawSaid(el("verdict"), "bad", firstRow(reply), desk.verdictSaid.lines);
    } else {
        desk.verdictSaid = { lines: [desk.words.accepted(reply.cells)], span: null };
        drawSaid(el("verdict"), "good", "accepted", desk.verdictSaid.lines);
    }
    desk.editor.mark("verdict", marksOf(desk, desk.verdictSaid, "fault"));
    desk.editor.mark("run", []);
    el("to-fault").disabled = !desk.verdictSaid.span;
}

/** A message's place in the editor's signs. */
function marksOf(desk, message, kind) {
    if (!message.span) return [];
    const place = (at) => desk.places[Math.min(at, desk.places.length - 1)];
    return [{ from: place(message.span[0]), to: place(message.span[1]), kind }];
}

/** Mends what a person cannot see, and says what was changed. */
function tidyText(desk) {
    const tidied = desk.words.tidy(desk.bytes);
    const changed = tidied.changes.length ? tidied.changes : ["nothing to mend"];
    el("tidied").textContent = [...changed, ...tidied.left.map((left) => left + ": this is left for you to mend")].join("; ");
    if (tidied.changes.length) desk.editor.set(shown(Uint8Array.from(tidied.bytes)));
}
