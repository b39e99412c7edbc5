// Tabs: a button shows its panel and hides those of the others; arrows go from one to the next.
import { byId, on } from "revosti/dom";

// Answers a function that selects a tab by name; `then` is told the name of each that is selected.
export function tabs(list, then) {
    const buttons = [...list.querySelectorAll("[role=tab]")];
    const select = button => {
        for (const one of buttons) {
            one.setAttribute("aria-selected", String(one === button));
            one.tabIndex = one === button ? 0 : -1;
            byId(one.getAttribute("aria-controls")).hidden = one !== button;
        }
        then(button.id.replace("tab-", ""));
    };
    buttons.forEach((button, at) => {
        on(button, "click", () => select(button));
        on(button, "keydown", event => {
            const step = { ArrowRight: 1, ArrowLeft: -1 }[event.key];
            if (!step) return;
            const other = buttons[(at + step + buttons.length) % buttons.length];
            other.focus();
            select(other);
        });
    });
    return name => select(buttons.find(button => button.id === `tab-${name}`));
}
