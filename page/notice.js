// What the page has to say beside its panels, and what it asks before work is lost.
import { byId, el, on } from "revosti/dom";

const LONG = 6_000; // milliseconds that good news stay

// A notice: "bad" stays until it is closed.
export function notice(words, kind = "good") {
    const box = el("div", { class: `notice ${kind}` }, el("p", {}, words),
        el("button", { type: "button", class: "close", "aria-label": "Close", on: { click: () => box.remove() } }, "×"));
    const place = byId("notices");
    place.replaceChildren(...[...place.children].filter(old => old.textContent !== box.textContent).slice(-2), box);
    if (kind === "good") setTimeout(() => box.remove(), LONG);
}

// Whether a person says yes. Escape and the first button say no.
export function agreed(words, yes) {
    const dialog = byId("question");
    dialog.querySelector("p").textContent = words;
    dialog.querySelector(".yes").textContent = yes;
    dialog.returnValue = "no";
    dialog.showModal();
    return new Promise(done => on(dialog, "close", () => done(dialog.returnValue === "yes"), { once: true }));
}
