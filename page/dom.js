// Elements, made and found.

const SVG = "http://www.w3.org/2000/svg";

// An element with attributes and children; `on` has listeners by event.
export const el = (tag, attributes = {}, ...children) => dressed(document.createElement(tag), attributes, children);
export const svg = (tag, attributes = {}, ...children) => dressed(document.createElementNS(SVG, tag), attributes, children);

function dressed(element, attributes, children) {
    for (const [name, value] of Object.entries(attributes)) {
        if (name === "on") Object.entries(value).forEach(([event, listener]) => element.addEventListener(event, listener));
        else if (value === true) element.setAttribute(name, "");
        else if (value !== false && value !== null) element.setAttribute(name, value);
    }
    element.append(...children.filter(child => child !== null));
    return element;
}

// The element with an id. There is one, or the page is broken.
export function byId(id) {
    const found = document.getElementById(id);
    if (!found) throw new Error(`the page has no element ${id}`);
    return found;
}

export const on = (element, event, listener, options) => element.addEventListener(event, listener, options);

// Details whose content is made when they are opened first.
export function later(details, content, open = false) {
    const fill = () => { if (details.open && details.children.length === 1) details.append(content()); };
    on(details, "toggle", fill);
    details.open = open;
    fill();
    return details;
}

// Something that is pointed at, with the mouse, the keyboard or a finger: `enter` and `leave` are called.
export function pointed(element, enter, leave) {
    for (const event of ["pointerenter", "focus"]) on(element, event, enter);
    for (const event of ["pointerleave", "blur"]) on(element, event, leave);
    return element;
}

// A piece of a kind of line, or a ring, with its words: a row of a legend.
export function sample(kind, words) {
    const shape = kind === "ring" ? svg("circle", { cx: 15, cy: 6, r: 4.5 }) : svg("line", { x1: 2, y1: 6, x2: 28, y2: 6 });
    const picture = svg("svg", { viewBox: "0 0 30 12", class: `kind-${kind}`, "aria-hidden": "true" }, shape);
    return el("span", { class: `row-${kind}` }, kind === "none" ? null : picture, words);
}

const STEP = 48; // rows that a long list shows at a time

// A long list: some rows first, and a button for more. `row` makes the element of an item.
export function longList(items, row, attributes = {}) {
    const list = el("ul", attributes), more = el("button", { type: "button", class: "more" });
    const grow = () => {
        const shown = list.children.length, next = items.slice(shown, shown + STEP);
        list.append(...next.map((item, at) => el("li", {}, row(item, shown + at))));
        const left = items.length - list.children.length;
        more.textContent = `${Math.min(STEP, left)} more of ${left.toLocaleString("en-US")}`;
        more.hidden = left === 0;
    };
    on(more, "click", grow);
    grow();
    return el("div", { class: "long-list" }, list, more);
}
