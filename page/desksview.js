// The examiner's screen: eight desks side by side, their slips, and the turns.
import { byId, el, on } from "revosti/dom";
import { countMarks } from "revosti/edges";
import { marksWords } from "revosti/explain";
import { choose, readFiles, save } from "revosti/files";
import { DESKS, Hall } from "revosti/hall";
import { coloursOf, drawEdges } from "revosti/ink";
import { agreed, notice } from "revosti/notice";
import { counted, say } from "revosti/say";
import { fingerprintText } from "revosti/sets";
import { release, tellSlip } from "revosti/slip";
import { View } from "revosti/view";

const MARGIN = 10; // pixels around a small picture
const CROWD = 2000; // open edges from which on a small picture leaves them out
const TURNS = 200; // turns that are shown

export class DesksView {
    // `sheetOf` reads the sheet of a file for this board, or tells what is wrong and answers null.
    constructor(session, { sheetOf, editorSheet }) {
        Object.assign(this, { session, sheetOf, editorSheet, hall: null });
        this.cards = Array.from({ length: DESKS }, (_, at) => this.card(at + 1));
        byId("desks").append(...this.cards.map(card => card.box));
        on(byId("turn"), "click", () => this.turn());
        on(byId("all-turns"), "click", () => this.all());
        on(byId("open-desks"), "click", () => this.reopen());
        session.on("board", () => this.follow());
        new ResizeObserver(() => this.drawAll()).observe(byId("desks"));
    }

    get used() {
        return Boolean(this.hall?.used);
    }

    // Another board opens the desks anew; one with the same lengths does not.
    follow() {
        const table = board => String(board.lengths.table);
        if (!this.hall || table(this.hall.board) !== table(this.session.board)) return this.open();
        this.hall.board = this.session.board;
        return this.show();
    }

    open() {
        this.hall = new Hall(this.session.board);
        this.show();
    }

    async reopen() {
        if (this.used && !await agreed("The desks have sheets, marks and turns, which are dropped.", "Drop them")) return;
        this.open();
        notice(say("desks_open", { points: counted(this.session.n, "point") }));
    }

    // A desk's card.
    card(desk) {
        const quiet = () => el("p", { class: "quiet" });
        const parts = { state: el("span"), canvas: el("canvas", { "aria-hidden": "true" }), file: quiet(), words: el("p"), marks: quiet(),
            slip: el("div", { class: "slip" }) };
        const button = (words, then) => el("button", { type: "button", on: { click: then } }, words);
        parts.box = el("section", { class: "card desk", id: `desk-${desk}`, "aria-label": `Desk ${desk}` },
            el("header", {}, el("h3", {}, `Desk ${desk}`), parts.state), el("div", { class: "mini" }, parts.canvas),
            parts.file, parts.words, parts.marks, parts.slip,
            el("div", { class: "actions" },
                button("Hand in …", () => choose(byId("chooser"), false, files => this.handInFile(desk, files))),
                button("Editor's sheet", () => this.handIn(desk, this.editorSheet(), "the editor's sheet")),
                button("Save marks", () => this.save(desk))));
        on(parts.box, "drop", event => {
            event.preventDefault();
            event.stopPropagation();
            byId("drop").hidden = true;
            this.handInFile(desk, event.dataTransfer.files);
        });
        return parts;
    }

    async handInFile(desk, files) {
        const [file] = await readFiles(files);
        if (file) this.handIn(desk, await this.sheetOf(file), file.name);
    }

    handIn(desk, sheet, file) {
        if (!sheet) return;
        const refused = this.hall.handIn(desk, sheet, file);
        notice(refused ? `Desk ${desk}: ${refused}` : say("desk_handed_in", { desk }), refused ? "bad" : "good");
        this.show();
    }

    save(desk) {
        save(`desk-${desk}.marks`, this.hall.desks[desk - 1].marks);
        save(`desk-${desk}.marks.fingerprint`, fingerprintText(this.session.lengths));
    }

    turn() {
        if (!this.hall.turn()) notice(`${say("no_line_left")}.`);
        this.show();
    }

    all() {
        const before = this.hall.turns.length;
        while (this.hall.turn());
        const count = this.hall.turns.length - before;
        notice(count ? say("turns_taken", { turns: counted(count, "turn") }) : `${say("no_line_left")}.`);
        this.show();
    }

    // The last turns, the very last first.
    showTurns() {
        const { turns } = this.hall, list = byId("turns");
        list.start = turns.length;
        list.replaceChildren(...turns.slice(-TURNS).reverse().map(words => el("li", {}, words)));
    }

    show() {
        this.showTurns();
        byId("desks-words").textContent = this.hall.words();
        this.cards.forEach((card, at) => this.showDesk(card, this.hall.desks[at]));
        this.drawAll();
    }

    showDesk(card, desk) {
        const next = this.hall.next === desk.desk, ended = desk.slip !== null, refused = ended && (desk.slip & 255n) !== 0n;
        card.box.classList.toggle("next", next);
        card.box.classList.toggle("refused", refused);
        card.box.classList.toggle("accepted", ended && !refused);
        const waits = this.hall.waits(desk.desk);
        const states = [[next, "served next"], [waits, "waits"], [refused, "stopped"], [ended, "accepted"], [true, ""]];
        card.state.textContent = states.find(([holds]) => holds)[1];
        card.file.textContent = desk.file;
        card.words.textContent = upper(this.hall.rowWords(desk.desk));
        card.marks.textContent = marksWords(this.session.n, desk.marks);
        card.slip.replaceChildren(...(ended ? this.slipRows(desk) : []));
    }

    // What examiner and candidate see of an ended sheet.
    slipRows(desk) {
        const told = tellSlip(desk.slip);
        const row = (who, bytes, words) => el("p", {}, `${who} `, el("code", {}, [...bytes].join(" ")), ` ${words}`);
        const button = el("button", { type: "button", disabled: told.released, on: { click: () => {
            desk.slip = release(desk.slip);
            this.show();
        } } }, told.released ? "Released" : "Release");
        return [row("Examiner:", told.examiner, told.examinerWords), row("Candidate:", told.candidate, told.candidateWords), button];
    }

    drawAll() {
        if (!this.hall || byId("view-desks").hidden) return;
        const colours = coloursOf(document.documentElement), ratio = window.devicePixelRatio || 1;
        this.cards.forEach((card, at) => {
            const { clientWidth: wide, clientHeight: high } = card.canvas.parentElement;
            Object.assign(card.canvas, { width: Math.round(wide * ratio), height: Math.round(high * ratio) });
            const spots = new View(this.session.board.points, wide, high, MARGIN).spots();
            const { marks } = this.hall.desks[at], { open } = countMarks(spots.length, marks);
            drawEdges(card.canvas, spots, marks, { shown: { open: open < CROWD, pending: true, struck: true }, colours, ratio });
            dots(card.canvas, spots);
        });
    }
}

const upper = words => words[0].toUpperCase() + words.slice(1);

// The holes of a small picture.
function dots(canvas, spots) {
    const pen = canvas.getContext("2d");
    pen.fillStyle = getComputedStyle(document.documentElement).getPropertyValue("--ink");
    for (const [x, y] of spots) {
        pen.beginPath();
        pen.arc(x, y, Math.max(1.4, 4 - spots.length / 60), 0, 7);
        pen.fill();
    }
}
