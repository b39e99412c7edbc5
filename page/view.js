// Where the points of a board lie on the screen: the board fits its frame, and can be moved and made larger.

const LEAST = 0.5, MOST = 60; // times the size at which the board fits
const MARGIN = 34; // pixels around a board that fits

export class View {
    constructor(points, wide, high, margin = MARGIN) {
        const xs = points.map(p => p[0]), ys = points.map(p => p[1]);
        Object.assign(this, { points, margin, left: Math.min(...xs), low: Math.min(...ys) });
        Object.assign(this, { spanX: Math.max(...xs) - this.left, spanY: Math.max(...ys) - this.low, zoom: 1, x: 0, y: 0 });
        this.resize(wide, high);
    }

    // Another frame: the board fits it, moved and enlarged as before.
    resize(wide, high) {
        Object.assign(this, { wide, high });
        const room = [wide - 2 * this.margin, high - 2 * this.margin].map(side => Math.max(side, 20));
        this.unit = Math.min(room[0] / Math.max(this.spanX, 1e-9), room[1] / Math.max(this.spanY, 1e-9));
        if (!Number.isFinite(this.unit) || this.spanX + this.spanY === 0) this.unit = 1;
    }

    fit() {
        Object.assign(this, { zoom: 1, x: 0, y: 0 });
    }

    pan(dx, dy) {
        this.x += dx;
        this.y += dy;
    }

    // Larger or smaller by a factor; what lies at a spot of the frame stays there.
    scale(factor, x = this.wide / 2, y = this.high / 2) {
        const zoom = Math.min(MOST, Math.max(LEAST, this.zoom * factor)), by = zoom / this.zoom;
        const [fromX, fromY] = [x - this.wide / 2, y - this.high / 2];
        this.x = fromX - (fromX - this.x) * by;
        this.y = fromY - (fromY - this.y) * by;
        this.zoom = zoom;
    }

    // The spots of all points. The second coordinate grows upward.
    spots() {
        const unit = this.unit * this.zoom;
        const [midX, midY] = [this.left + this.spanX / 2, this.low + this.spanY / 2];
        return this.points.map(([x, y]) => [this.wide / 2 + this.x + (x - midX) * unit, this.high / 2 + this.y - (y - midY) * unit]);
    }
}

// The part of the piece from p to q that lies in a frame, or null.
export function clipped(p, q, wide, high, border = 4) {
    let from = 0, to = 1;
    const dx = q[0] - p[0], dy = q[1] - p[1];
    for (const [run, room] of [[-dx, p[0] + border], [dx, wide + border - p[0]], [-dy, p[1] + border], [dy, high + border - p[1]]]) {
        if (run === 0 && room < 0) return null;
        if (run < 0) from = Math.max(from, room / run);
        if (run > 0) to = Math.min(to, room / run);
    }
    return from > to ? null : [p[0] + from * dx, p[1] + from * dy, p[0] + to * dx, p[1] + to * dy];
}
