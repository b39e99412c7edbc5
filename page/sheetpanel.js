// The sheet: its text, what is done with it, its verdict, and the record at the caret.
import { Editor } from "revosti/editor";
import { byId, el, later, longList, on, pointed } from "revosti/dom";
import { edge, name } from "revosti/edges";
import { faultWords, marksWords, struckWords, verdictWords } from "revosti/explain";
import { Refused } from "revosti/lengths";
import { agreed, notice } from "revosti/notice";
import { spokenOf } from "revosti/reasons";
import { LINE, SPLIT } from "revosti/parts";
import { hasBoard } from "revosti/read";
import { are, counted, meaning, say } from "revosti/say";

export class SheetPanel {
    constructor(session, picture, { onCase, onWhole }) {
        Object.assign(this, { session, picture, onCase, case: null });
        this.editor = new Editor(byId("editor"), {
            label: "The sheet, in the text form", onText: text => this.read(text, onWhole), onCaret: () => this.look() });
        for (const action of ["check", "ask", "mark"]) on(byId(action), "click", () => this.judge(action));
        for (const action of ["confirm", "withdraw"]) on(byId(action), "click", () => this.settle(action));
        on(byId("fresh"), "click", () => this.fresh());
        on(byId("editor"), "keydown", event => {
            if (event.key === "Enter" && (event.ctrlKey || event.metaKey)) this.judge("check");
        });
        session.on("sheet", () => this.showText());
        session.on("verdict", () => this.showVerdict());
        session.on("sheet", "marks", "board", () => this.look());
        session.on("sheet", "marks", () => this.showSaved());
    }

    // Another text; one with a board in front fills the board's box, too.
    read(text, onWhole) {
        if (!hasBoard(text) || !onWhole(text)) this.session.setText(text);
    }

    // Puts a sheet in the editor that stands in a file as it is.
    put(text) {
        this.editor.set(text);
        this.session.setText(this.editor.text, true);
        this.showSaved();
    }

    judge(action) {
        this.editor.flush();
        if (this.session.textFault) {
            this.editor.go(this.session.textFault.line);
            return;
        }
        this.session.judge(action);
        const { verdict } = this.session, line = verdict.sheet.lines[verdict.record - 1];
        if (line) this.editor.go(line, false);
    }

    settle(action) {
        const refused = this.session.settle(action);
        if (refused) notice(refused, "bad");
        else notice(marksWords(this.session.n, this.session.marks));
    }

    async fresh() {
        const { struck, pending } = this.session.counts, count = struck + pending;
        const words = `Fresh marks open ${counted(count, "edge")} again that ${are(count)} struck or pending.`;
        if (count && !await agreed(words, "Open them")) return;
        this.session.replaceMarks(this.session.lengths.fresh());
    }

    showSaved() {
        const { sheet, marks } = this.session.saved;
        byId("unsaved").textContent = [sheet ? "" : "sheet not saved", marks ? "" : "marks not saved"].filter(Boolean).join(", ");
    }

    // The fault of the text, or that of the verdict on this very text.
    showText() {
        const { textFault, verdict, text, sheet } = this.session, box = byId("text-fault");
        box.hidden = !textFault;
        if (textFault) box.textContent = `Line ${textFault.line}, column ${textFault.column}: ${textFault.words}`;
        const judged = verdict && verdict.text === text && verdict.refusal ? sheet.lines[verdict.record - 1] ?? 0 : 0;
        this.editor.mark("fault", textFault ? textFault.line : judged);
        byId("verdict").classList.toggle("old", Boolean(verdict) && verdict.text !== text);
    }

    showVerdict() {
        const { verdict } = this.session, box = byId("verdict");
        box.replaceChildren();
        box.classList.remove("refused", "accepted");
        this.showText();
        if (!verdict) return;
        const { parts } = verdict.sheet, told = verdictWords(parts, verdict), fault = faultWords(verdict.sheet, verdict);
        box.classList.add(verdict.refusal ? "refused" : "accepted");
        const settled = verdict.settled ? [`${SETTLED[verdict.settled]} ${marksWords(this.session.n, this.session.marks)}`] : [];
        box.append(el("p", { class: "quiet" }, [DONE[verdict.action], ...settled].join(" ")),
            ...told.words.map((words, at) => el("p", { class: at ? null : "first" }, words)));
        if (fault) box.append(el("p", {}, fault.words), this.rows(fault.rows, verdict.sheet));
        const count = verdict.changed().length;
        if (count) box.append(this.struckList(count, verdict));
    }

    // The edges that the sheet strikes, each with what that means; many of them when they are asked for.
    struckList(count, verdict) {
        const { sheet, action } = verdict, mark = action === "ask" ? "pending" : "struck";
        const list = () => longList(struckWords(sheet.parts.records, verdict), item => this.struckRow(item, sheet));
        return later(el("details", { class: "struck-edges" }, el("summary", {}, `${counted(count, "edge")} ${are(count)} ${mark}`)),
            list, count <= FEW);
    }

    // The rows around the record at fault; each leads to its line.
    rows(rows, sheet) {
        return el("ul", { class: "rows" }, ...rows.map(row => el("li", { class: row.fault ? "at-fault" : null },
            el("span", { class: "num" }, String(row.number)), this.toLine(sheet.lines[row.number - 1], row.text))));
    }

    toLine(line, words) {
        if (!line) return words;
        return el("button", { type: "button", class: "link", title: `Line ${line}`, on: { click: () => this.editor.go(line) } }, words);
    }

    struckRow({ edge: [a, b], record, words }, sheet) {
        const row = el("button",
            { type: "button", class: "sentence", on: { click: () => record && this.editor.go(sheet.lines[record - 1]) } }, words);
        return this.lights(row, { edges: { lit: [[a, b]] } });
    }

    // An element that lights something up as long as it is pointed at.
    lights(element, lit) {
        return pointed(element, () => this.picture.light(lit), () => this.picture.light());
    }

    // The record at the caret: K, its split, the pairs.
    look() {
        const { session } = this;
        this.case = session.board ? session.caseAt(this.editor.line || 1) : null;
        this.onCase(this.case);
        const box = byId("case"), found = this.case;
        box.replaceChildren();
        if (!found) return;
        box.append(el("h3", {}, `Record ${found.number}, line ${session.sheet.lines[found.number - 1]}`));
        if (found.k.length) box.append(el("p", {}, `K: ${found.k.map(e => name(...e)).join(", ")}`));
        if (found.words) box.append(el("p", {}, sentence(found.words)));
        else if ([LINE, SPLIT].includes(found.kind)) this.showPairs(box, found);
        if (found.line) this.showReasons(box, found);
    }

    showPairs(box, { points: [c], k, pairs, due }) {
        const under = k.map(e => name(...e)).join(", "), still = new Set(due.map(String));
        box.append(el("p", {}, pairs.length === 0 ? say("no_pair_stands", { split: c, under })
            : say("pairs_stand",
                { pairs: counted(pairs.length, "pair"), stand: pairs.length === 1 ? "stands" : "stand", split: c, under })));
        if (!pairs.length) return;
        box.append(el("p", { class: "quiet" },
            due.length ? `${counted(due.length, "pair")} ${are(due.length)} due, without a case.` : "Each has a case."));
        const chips = longList([...due, ...pairs.filter(pair => !still.has(String(pair)))],
            pair => this.chip(pair, c, still.has(String(pair))));
        chips.classList.add("chips");
        box.append(chips);
    }

    chip([x, y], c, due) {
        const chip = el("button", { type: "button", class: `chip ${due ? "due" : "named"}`, title: due ? "due" : "has a case" },
            `${x}-${y}`);
        return this.lights(chip, { edges: { lit: [edge(c, x), edge(c, y)] }, rings: [c] });
    }

    // The sentences of a line, once they are asked for.
    showReasons(box, { line, marks }) {
        const place = el("details", { class: "reasons" }, el("summary", {}, `Why record ${line} holds, pair by pair`));
        box.append(later(place, () => this.reasons(marks, line)));
    }

    reasons(marks, line) {
        const { session } = this;
        try {
            const sentences = session.lengths.tell(marks, session.sheet.parts.records, line);
            return longList(sentences, words => this.lights(el("button", { type: "button", class: "sentence" }, words), spokenOf(words)));
        } catch (refused) {
            if (!(refused instanceof Refused)) throw refused;
            return el("p", {}, say("refused", { number: refused.number, words: meaning(refused.number) }));
        }
    }
}

const SETTLED = { confirm: "Then confirmed.", withdraw: "Then withdrawn." };
const FEW = 8; // struck edges that are shown at once
const DONE = { check: "Checked, and no mark is changed. Marking comes to this:",
    ask: "Asked. Strikes are pending, until they are confirmed or withdrawn.", mark: "Marked. Strikes count." };

// Words as a sentence.
const sentence = words => `${words[0].toUpperCase()}${words.slice(1)}.`;
