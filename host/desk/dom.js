// Elements, made without markup in strings: what a script holds is only ever text on the page.

const el = (id) => document.getElementById(id);

/** An element with attributes and children; a child may be text. */
function make(name, attributes, ...children) {
    return fill(document.createElement(name), attributes, children);
}

function makeSvg(name, attributes, ...children) {
    return fill(document.createElementNS("http://www.w3.org/2000/svg", name), attributes, children);
}

function fill(element, attributes, children) {
    for (const [key, value] of Object.entries(attributes || {})) element.setAttribute(key, value);
    element.append(...children);
    return element;
}

/** What is said of an answer: the row that `drive` prints first, then its words. A line that starts with spaces is a line of the script, or carets under it. */
function drawSaid(element, kind, row, lines) {
    const parts = [];
    for (const line of lines) {
        const last = parts[parts.length - 1];
        if (!line.startsWith("    ")) parts.push(make("p", {}, line));
        else if (last && last.tagName === "PRE") last.append("\n" + line);
        else parts.push(make("pre", { tabindex: "0" }, line));
    }
    element.className = "said " + kind;
    element.replaceChildren(...(row ? [make("p", { class: "row" }, row)] : []), ...parts);
}

/** A whole number of a field, kept between its bounds. */
function numberOf(field, otherwise) {
    const number = Number.parseInt(field.value, 10);
    if (!Number.isFinite(number)) return otherwise;
    const least = field.min === "" ? -2147483648 : Number(field.min), most = field.max === "" ? 2147483647 : Number(field.max);
    return Math.min(most, Math.max(least, number));
}
