// The picture of a board: its edges on a canvas, and above it holes, numbers, K, pairs, a tour and what is pointed at.
import { PENDING, STRUCK, edge, has, markOf, name } from "revosti/edges";
import { el, on, svg } from "revosti/dom";
import { coloursOf, drawEdges } from "revosti/ink";
import { placeLabels } from "revosti/labels";
import { View } from "revosti/view";

const NEAR = 14; // pixels within which a hole is pointed at
const NOTHING = { edges: {}, rings: [], points: [] };
// Kinds of edges, the last on top.
const ORDER = ["tour", "broken", "core", "named", "due", "k", "crossed", "stretch", "order", "out", "put", "lit"];

export class Picture {
    constructor(frame, { onHole = () => {} } = {}) {
        this.frame = frame;
        this.canvas = el("canvas", { "aria-hidden": "true" });
        this.overlay = svg("svg", { "aria-hidden": "true" });
        this.tip = el("div", { class: "tip", hidden: true });
        frame.append(this.canvas, this.overlay, this.tip);
        Object.assign(this, { view: null, marks: null, scene: NOTHING, lit: NOTHING, waiting: false, offsets: null, onHole });
        this.shown = { open: true, pending: true, struck: true };
        new ResizeObserver(() => this.resize()).observe(frame);
        matchMedia("(prefers-color-scheme: dark)").addEventListener("change", () => this.redraw());
        handle(this);
    }

    // Another board: it fits the frame.
    setBoard(board) {
        const { clientWidth: wide, clientHeight: high } = this.frame;
        this.board = board;
        this.view = new View(board.points, wide || 300, high || 300);
        Object.assign(this, { marks: null, scene: NOTHING, lit: NOTHING, offsets: null });
    }

    setMarks(marks) {
        this.marks = marks;
        this.redraw();
    }

    // What is drawn above the edges: edges by kind, rings around points, and points whose numbers are shown in any
    // case.
    setScene(scene) {
        const before = String(this.trackEdges());
        this.scene = { ...NOTHING, ...scene };
        if (String(this.trackEdges()) !== before) this.offsets = null;
        this.redraw();
    }

    // What is pointed at elsewhere lights up; without it, nothing does.
    light(lit = NOTHING) {
        this.lit = { ...NOTHING, ...lit };
        this.redraw();
    }

    show(kind, shown) {
        this.shown[kind] = shown;
        this.redraw();
    }

    resize() {
        const { clientWidth: wide, clientHeight: high } = this.frame;
        if (!this.view || !wide || !high) return;
        this.view.resize(wide, high);
        this.offsets = null;
        this.redraw();
    }

    zoom(factor, x, y) {
        this.view.scale(factor, x, y);
        this.offsets = null;
        this.redraw();
    }

    pan(dx, dy) {
        this.view.pan(dx, dy);
        this.redraw();
    }

    fit() {
        this.view.fit();
        this.offsets = null;
        this.redraw();
    }

    // Draws with the next frame of the screen, once for all changes.
    redraw() {
        if (this.waiting) return;
        this.waiting = true;
        requestAnimationFrame(() => {
            this.waiting = false;
            if (this.view && this.marks) this.draw();
        });
    }

    draw() {
        const { wide, high } = this.view, ratio = window.devicePixelRatio || 1, spots = this.view.spots();
        const [across, down] = [Math.round(wide * ratio), Math.round(high * ratio)];
        if (this.canvas.width !== across || this.canvas.height !== down) Object.assign(this.canvas, { width: across, height: down });
        const busy = Object.keys(this.scene.edges).length || Object.keys(this.lit.edges).length;
        this.drawn = drawEdges(this.canvas, spots, this.marks,
            { shown: this.shown, colours: coloursOf(this.frame), back: busy ? 0.7 : 1, ratio });
        this.overlay.setAttribute("viewBox", `0 0 ${wide} ${high}`);
        this.overlay.replaceChildren(...this.groups(spots));
    }

    // All that lies above the edges.
    groups(spots) {
        const radius = Math.max(2.6, 6 - spots.length / 45) * Math.min(1.6, Math.max(1, Math.sqrt(this.view.zoom)));
        const edges = ORDER.map(kind => svg("g", { class: `kind-${kind}` },
            ...[...this.scene.edges[kind] ?? [], ...this.lit.edges[kind] ?? []].map(e => lineOf(spots, e))));
        const rings = [...this.scene.rings, ...this.lit.rings].map(p => circleOf(spots[p - 1], radius + 5));
        const holes = spots.map(spot => circleOf(spot, radius));
        return [...edges, svg("g", { class: "holes" }, ...holes), svg("g", { class: "rings" }, ...rings), this.labels(spots, radius)];
    }

    // The numbers of the holes; where holes lie close, only of those that matter.
    labels(spots, radius) {
        const font = Math.round(15 - Math.min(4, spots.length / 45)), crowded = crowding(spots) < 1.75 * font;
        const matter = new Set([...this.scene.rings, ...this.lit.rings, ...this.scene.points, ...this.lit.points,
            ...[this.scene, this.lit].flatMap(({ edges }) =>
                ["k", "crossed", "stretch", "lit", "out", "put"].flatMap(kind => (edges[kind] ?? []).flat()))]);
        this.offsets ??= placeLabels(spots, radius, font, this.trackEdges().map(([a, b]) => [spots[a - 1], spots[b - 1]]));
        const texts = spots.map(([x, y], at) => {
            if (crowded && !matter.has(at + 1) && at + 1 !== this.hole) return null;
            const [dx, dy] = this.offsets[at];
            return svg("text", { x: (x + dx).toFixed(1), y: (y + dy).toFixed(1), class: matter.has(at + 1) ? "matters" : null },
                String(at + 1));
        });
        return svg("g", { class: "labels", "font-size": font }, ...texts);
    }

    // The edges that numbers keep away from.
    trackEdges() {
        return ["tour", "broken", "k", "crossed", "stretch"].flatMap(kind => this.scene.edges[kind] ?? []);
    }

    // The hole at a spot of the frame, 0 where none is near.
    holeAt(x, y) {
        let best = 0, least = NEAR;
        this.view.spots().forEach((spot, at) => {
            const far = Math.hypot(spot[0] - x, spot[1] - y);
            if (far < least) [best, least] = [at + 1, far];
        });
        return best;
    }

    // Tells of the hole that is pointed at.
    point(x, y) {
        const hole = this.view && this.marks ? this.holeAt(x, y) : 0;
        if (hole !== this.hole) {
            this.hole = hole;
            this.redraw();
        }
        this.tip.hidden = !hole;
        if (!hole) return;
        this.tip.textContent = this.onHole(hole);
        this.tip.style.left = `${Math.min(x + 14, this.view.wide - 190)}px`;
        this.tip.style.top = `${Math.max(4, y - 40)}px`;
    }
}

// The middle distance from a hole to the nearest other.
function crowding(spots) {
    const far = spots.map((p, at) =>
        spots.reduce((least, q, other) => (other === at ? least : Math.min(least, Math.hypot(p[0] - q[0], p[1] - q[1]))), Infinity));
    return far.sort((x, y) => x - y)[far.length >> 1];
}

const lineOf = (spots, [a, b]) => svg("line", { x1: spots[a - 1][0].toFixed(1), y1: spots[a - 1][1].toFixed(1),
    x2: spots[b - 1][0].toFixed(1), y2: spots[b - 1][1].toFixed(1), "data-edge": name(a, b) });
const circleOf = ([x, y], r) => svg("circle", { cx: x.toFixed(1), cy: y.toFixed(1), r: r.toFixed(1) });

// The mouse, the wheel, fingers and keys move a picture.
function handle(picture) {
    const { frame } = picture, fingers = new Map();
    const spot = event => [event.clientX - frame.getBoundingClientRect().left, event.clientY - frame.getBoundingClientRect().top];
    on(frame, "wheel", event => {
        event.preventDefault();
        picture.zoom(Math.exp(-event.deltaY * (event.deltaMode ? 0.05 : 0.0016)), ...spot(event));
    }, { passive: false });
    on(frame, "pointerdown", event => {
        frame.setPointerCapture(event.pointerId);
        fingers.set(event.pointerId, spot(event));
    });
    on(frame, "pointermove", event => {
        const now = spot(event), before = fingers.get(event.pointerId);
        if (!before) return picture.point(...now);
        fingers.set(event.pointerId, now);
        const other = [...fingers].find(([id]) => id !== event.pointerId)?.[1];
        return other ? pinch(picture, other, before, now) : picture.pan(now[0] - before[0], now[1] - before[1]);
    });
    for (const end of ["pointerup", "pointercancel"]) on(frame, end, event => fingers.delete(event.pointerId));
    on(frame, "pointerleave", () => picture.point(-99, -99));
    on(frame, "dblclick", event => picture.zoom(event.shiftKey ? 0.5 : 2, ...spot(event)));
    on(frame, "keydown", event => {
        const move = KEYS[event.key];
        if (!move || event.ctrlKey || event.metaKey || event.altKey) return;
        event.preventDefault();
        move(picture);
    });
}

const KEYS = {
    ArrowLeft: p => p.pan(40, 0), ArrowRight: p => p.pan(-40, 0), ArrowUp: p => p.pan(0, 40), ArrowDown: p => p.pan(0, -40),
    "+": p => p.zoom(1.25), "=": p => p.zoom(1.25), "-": p => p.zoom(0.8), 0: p => p.fit(), Home: p => p.fit(),
};

// Two fingers: one rests at a spot, the other moves.
function pinch(picture, rest, before, now) {
    const far = (p, q) => Math.max(10, Math.hypot(p[0] - q[0], p[1] - q[1]));
    picture.zoom(far(rest, now) / far(rest, before), (rest[0] + now[0]) / 2, (rest[1] + now[1]) / 2);
    picture.pan((now[0] - before[0]) / 2, (now[1] - before[1]) / 2);
}

// What a case shows: K, the edge that is crossed, the stretch and its new order, the edges of the standing pairs,
// rings.
export function caseScene(found) {
    if (!found?.k.length) return NOTHING;
    const legs = pairs => uniqueEdges(pairs.flat().map(x => edge(found.points[0], x))).filter(e => !has(found.k, ...e));
    const due = legs(found.due), named = legs(found.pairs).filter(e => !has(due, ...e));
    const crossed = found.crossed ? [edge(...found.crossed)] : [];
    const [stretch, order] = [found.stretch, found.order].map(path => uniqueEdges(path?.legs ?? []));
    return { edges: { k: found.k.filter(e => !has([...crossed, ...stretch], ...e)), crossed, stretch, order, named, due },
        rings: found.points.filter(p => p > 0), points: [] };
}

const uniqueEdges = list => [...new Map(list.filter(([a, b]) => a !== b).map(e => [name(...e), e])).values()];

// What a tour shows: its edges, those of them that are struck, and a light core where they are pending.
export function tourScene(n, marks, legs) {
    const marked = mark => legs.filter(e => markOf(n, marks, ...e) === mark);
    return { tour: legs.filter(e => markOf(n, marks, ...e) !== STRUCK), broken: marked(STRUCK), core: marked(PENDING) };
}
