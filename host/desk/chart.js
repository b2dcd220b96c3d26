// The picture of a curve.

const HEIGHT = 300, TOP = 14, BOTTOM = 46, RIGHT = 16, LEFT = 60, LETTER = 7.5;

/** Round numbers between two, not more than there is room for. */
function ticks(low, high, most) {
    if (high === low) return [low];
    const rough = (high - low) / most, ten = 10 ** Math.floor(Math.log10(rough));
    const step = Math.max(1, [1, 2, 5, 10].map((n) => n * ten).find((n) => n >= rough));
    const list = [];
    for (let at = Math.ceil(low / step) * step; at <= high; at += step) list.push(at);
    return list;
}

/** What the axes span. A flat curve gets room above and below, names at the sides. */
function spans({ points, x, y }) {
    const values = points.filter((p) => p.value !== null).map((p) => p.value);
    const bounds = isWide(y) ? [Math.min(0, ...values), Math.max(0, ...values)] : y.bounds;
    const [low, high] = bounds[0] === bounds[1] ? [bounds[0] - 1, bounds[1] + 1] : bounds;
    const side = x.names.length ? 0.5 : 0;
    return { x: [points[0].reading - side, points[points.length - 1].reading + side], y: [low, high] };
}

/** Runs of neighbouring points that have a value. */
function stretches(points) {
    const list = [[]];
    for (const point of points) {
        if (point.value === null) list.push([]);
        else list[list.length - 1].push(point);
    }
    return list.filter((stretch) => stretch.length > 0);
}

function axes({ x, y }, place, width) {
    const { x: xs, y: ys } = place.spans, foot = HEIGHT - BOTTOM;
    const widest = Math.max(...[...xs, ...x.names].map((v) => String(v).length)) * LETTER + 8;
    const lines = ticks(...ys, 5).flatMap((v) => [
        makeSvg("line", { class: v === 0 ? "zero" : "grid", x1: LEFT, x2: width - RIGHT, y1: place.y(v), y2: place.y(v) }),
        makeSvg("text", { x: LEFT - 8, y: place.y(v) + 4, "text-anchor": "end" }, valueWord(y, v).slice(0, 7))]);
    const marks = ticks(...xs, Math.max(1, Math.floor((width - LEFT - RIGHT) / widest))).flatMap((v) => [
        makeSvg("line", { class: "grid", x1: place.x(v), x2: place.x(v), y1: TOP, y2: foot }),
        makeSvg("text", { x: place.x(v), y: foot + 18, "text-anchor": "middle" }, valueWord(x, v))]);
    const titles = [makeSvg("text", { class: "title", x: width - RIGHT, y: HEIGHT - 6, "text-anchor": "end" }, x.path),
        makeSvg("text", { class: "title", x: LEFT + 6, y: TOP + 12 }, y.path)];
    return [...lines, ...marks, ...titles];
}

/** The reading that is stored, where it is among those that are drawn. */
function presentMark({ now, points }, place) {
    const point = points.find((p) => p.reading === now);
    if (!point) return [];
    const at = place.x(now), line = makeSvg("line", { class: "now", x1: at, x2: at, y1: TOP, y2: HEIGHT - BOTTOM });
    return point.value === null ? [line] : [line, makeSvg("circle", { class: "now", cx: at, cy: place.y(point.value), r: 5 })];
}

function drawChart(curve, room) {
    const width = Math.min(760, Math.max(280, room || 640)), span = spans(curve);
    const scale = ([low, high], from, to) => (v) => (high === low ? (from + to) / 2 : from + ((v - low) / (high - low)) * (to - from));
    const place = { spans: span, x: scale(span.x, LEFT + 10, width - RIGHT - 10), y: scale(span.y, HEIGHT - BOTTOM - 6, TOP + 22) };
    const at = (p) => `${place.x(p.reading).toFixed(1)},${place.y(p.value).toFixed(1)}`;
    const lines = curve.x.names.length ? [] : stretches(curve.points).map((s) => makeSvg("polyline", { class: "curve", points: s.map(at).join(" ") }));
    const few = curve.points.length <= 40;
    const dots = curve.points.filter((p) => p.value !== null && (few || curve.x.names.length)).map((p) =>
        makeSvg("circle", { class: "dot", cx: place.x(p.reading), cy: place.y(p.value), r: 3.5 }));
    const gaps = curve.points.filter((p) => p.value === null).map((p) =>
        makeSvg("line", { class: "gap", x1: place.x(p.reading), x2: place.x(p.reading), y1: HEIGHT - BOTTOM - 6, y2: HEIGHT - BOTTOM + 4 }));
    const name = `${curve.y.path} for each reading of ${curve.x.path}`;
    return makeSvg("svg", { viewBox: `0 0 ${width} ${HEIGHT}`, width, height: HEIGHT, role: "img", "aria-label": name },
        ...axes(curve, place, width), ...lines, ...dots, ...gaps, ...presentMark(curve, place));
}
