// The sheet as text: a field with line numbers, the line at fault and the line of the caret marked. The field is the
// browser's own, so that undo, search and spelling of keys are its own, too.
import { el, on } from "revosti/dom";

const LONG = 300; // lines from which on a text is put in at once: the browser inserts many lines slowly
const WAIT = 120; // milliseconds after the last key until the text is read

export class Editor {
    constructor(root, { label, onText = () => {}, onCaret = () => {} }) {
        this.area = el("textarea", { spellcheck: "false", autocomplete: "off", autocapitalize: "off", wrap: "off", "aria-label": label });
        this.numbers = el("pre", { class: "numbers", "aria-hidden": "true" });
        this.bands = el("div", { class: "bands", "aria-hidden": "true" });
        root.classList.add("editor");
        root.append(el("div", { class: "gutter" }, this.numbers), this.bands, this.area);
        Object.assign(this, { onText, onCaret, known: "", count: 0, timer: 0, marked: { caret: 0, fault: 0 }, line: 0 });
        on(this.area, "input", () => this.wait());
        on(this.area, "scroll", () => this.follow());
        for (const event of ["keyup", "click", "focus"]) on(this.area, event, () => this.caret());
        this.number();
    }

    get text() {
        return this.area.value;
    }

    // Puts a text in the field. Where the field is seen and the text is not long, undo brings the old one back.
    set(text) {
        if (this.area.offsetParent !== null && this.count < LONG && text.split("\n").length < LONG) {
            this.area.focus({ preventScroll: true });
            this.area.select();
            document.execCommand(text ? "insertText" : "delete", false, text);
        }
        if (this.area.value !== text.replace(/\r\n?/g, "\n")) this.area.value = text;
        this.area.setSelectionRange(0, 0);
        this.area.scrollTop = 0;
        this.flush();
        this.caret();
    }

    wait() {
        this.number();
        clearTimeout(this.timer);
        this.timer = setTimeout(() => this.flush(), WAIT);
    }

    // Has the text read now, where it is another than before.
    flush() {
        const { text } = this;
        clearTimeout(this.timer);
        if (text === this.known) return;
        this.known = text;
        this.number();
        this.onText(text);
    }

    // One number a line.
    number() {
        const count = this.text.split("\n").length;
        if (count === this.count) return;
        this.count = count;
        this.numbers.textContent = Array.from({ length: count }, (_, at) => at + 1).join("\n");
    }

    follow() {
        for (const layer of [this.numbers, this.bands]) layer.style.transform = `translateY(${-this.area.scrollTop}px)`;
    }

    // Tells the line of the caret, where it is another.
    caret(again = false) {
        const line = this.text.slice(0, this.area.selectionStart).split("\n").length;
        if (line === this.line && !again) return;
        this.line = line;
        this.mark("caret", line);
        this.onCaret(line);
    }

    // Marks a line as "fault" or "caret"; 0 is none.
    mark(kind, line) {
        this.marked[kind] = line;
        const bands = Object.entries(this.marked).filter(([, at]) => at > 0).map(([name, at]) => {
            const band = el("div", { class: `band ${name}`, "data-line": at });
            band.style.top = `calc(var(--row) * ${at - 1})`;
            return band;
        });
        this.bands.replaceChildren(...bands);
        this.follow();
    }

    // Puts the caret on a line and shows it; the field has the keyboard then, unless it is to stay where it is.
    go(line, focus = true) {
        const rows = this.text.split("\n"), start = rows.slice(0, line - 1).reduce((sum, row) => sum + row.length + 1, 0);
        if (focus) this.area.focus({ preventScroll: true });
        this.area.setSelectionRange(start, start + (rows[line - 1] ?? "").length);
        const high = this.area.scrollHeight / Math.max(1, rows.length);
        this.area.scrollTop = Math.max(0, high * (line - 1) - this.area.clientHeight / 3);
        this.caret();
    }
}
