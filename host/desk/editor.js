// The editor: a plain text field, and behind it the same lines with their numbers and marks. Both wrap alike, so that a mark lies under its word.

/** The parts of a line around the marks that touch it. */
function lineParts(line, start, marks) {
    const parts = [];
    let at = 0;
    for (const { from, to, kind } of marks) {
        const left = Math.max(from - start, at), right = Math.min(to - start, line.length);
        const empty = from === to && from >= start && from - start <= line.length;
        if (left >= right && !empty) continue;
        parts.push(line.slice(at, left));
        // a place without a sign, as a missing line end, gets room to be seen
        parts.push(make("mark", { class: kind }, left < right ? line.slice(left, right) : "\u00a0"));
        at = Math.max(at, right > left ? right : left);
    }
    return [...parts, line.slice(at)];
}

function drawLines(back, signs, marks) {
    const sorted = [...marks].sort((a, b) => a.from - b.from);
    let start = 0;
    const lines = signs.split("\n").map((line, i, all) => {
        const isEnd = i > 0 && i === all.length - 1 && line === "";
        const drawn = make("div", { class: isEnd ? "line end" : "line" }, ...lineParts(line, start, sorted));
        start += line.length + 1;
        return drawn;
    });
    back.replaceChildren(...lines);
}

function openEditor(area, back, changed) {
    let marks = [];
    const draw = () => drawLines(back, area.value, marks);

    area.addEventListener("input", () => {
        const clean = safe(area.value);
        if (clean !== area.value) {
            const before = safe(area.value.slice(0, area.selectionStart)).length;
            area.value = clean;
            area.setSelectionRange(before, before);
        }
        changed();
    });

    return {
        signs: () => area.value,
        set(signs) {
            area.value = signs;
            marks = [];
            changed();
        },
        /** Takes marks in place of those of the same source. */
        mark(source, list) {
            marks = [...marks.filter((m) => m.source !== source), ...list.map((m) => ({ ...m, source }))];
            draw();
        },
        goToMark() {
            if (marks.length === 0) return;
            area.focus();
            area.setSelectionRange(marks[0].from, marks[0].to);
            back.querySelector("mark")?.scrollIntoView({ block: "center" });
        },
    };
}
