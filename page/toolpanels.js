// The smaller panels: tour, savings, wall list and slip.
import { byId, el, on, sample } from "revosti/dom";
import { edge, name } from "revosti/edges";
import { outside } from "revosti/fault";
import { Refused } from "revosti/lengths";
import { BadPages, pageCount, pageText, readList, wallList } from "revosti/pages";
import { SAVINGS, tellSaving } from "revosti/saving";
import { meaning, say } from "revosti/say";
import { release, tellSlip } from "revosti/slip";
import { BadTour, legs, readTour, struckLegs, tourWords, wrongTour } from "revosti/tour";

const refusedWords = (refused, more) =>
    [say("refused", { number: refused.number, words: meaning(refused.number) }), more].filter(Boolean).join(" ");

// The words of a card, and whether they are of a refusal.
function told(id, words, refused) {
    const box = byId(id);
    box.hidden = !words.length;
    box.classList.toggle("refused", refused);
    box.classList.toggle("accepted", !refused);
    box.replaceChildren(...words.map((line, at) => el("p", { class: at ? null : "first" }, line)));
}

export class TourPanel {
    constructor(session) {
        this.session = session;
        on(byId("check-tour"), "click", () => this.check());
        on(byId("clear-tour"), "click", () => this.put(""));
        session.on("marks", () => session.tour && this.check());
        session.on("tour", () => session.tour || told("tour-words", [], false));
    }

    put(text) {
        byId("tour-text").value = text;
        this.session.setTour(null);
        told("tour-words", [], false);
        if (text) this.check();
    }

    // Checks the tour, and has it drawn.
    check() {
        const { session } = this;
        let points;
        try {
            points = readTour(byId("tour-text").value);
            const { length } = session.lengths.tour(session.marks, points), struck = struckLegs(session.n, session.marks, points);
            told("tour-words", [tourWords(length, struck)], struck.length > 0);
            session.setTour({ points, length, legs: legs(points), struck });
        } catch (error) {
            if (!(error instanceof BadTour || error instanceof Refused)) throw error;
            session.setTour(null);
            told("tour-words", [error instanceof Refused ? refusedWords(error, wrongTour(session.n, points)) : error.message], true);
        }
    }
}

export class SavingsPanel {
    constructor(session, picture) {
        Object.assign(this, { session, picture });
        byId("savings").append(...Object.keys(SAVINGS).map(which => this.form(which)));
        session.on("board", () => told("saving-words", [], false));
    }

    form(which) {
        const fields = [...SAVINGS[which].points].map(letter =>
            el("input", { inputmode: "numeric", placeholder: letter.toLowerCase(),
                "aria-label": `${which}, point ${letter.toLowerCase()}` }));
        const tell = () => this.tell(which, fields.map(field => field.value.trim()));
        for (const field of fields) on(field, "keydown", event => event.key === "Enter" && tell());
        return el("fieldset", { class: "saving", id: `saving-${which}` }, el("legend", {}, TITLES[which]), ...fields,
            el("button", { type: "button", class: "main", on: { click: tell } }, "Tell"));
    }

    tell(which, words) {
        const wrong = words.find(word => !/^[0-9]{1,5}$/.test(word) || Number(word) > 65535), points = words.map(Number);
        if (wrong !== undefined) return told("saving-words", [say("tour_word", { word: wrong })], true);
        try {
            const found = tellSaving(this.session.lengths, which, points);
            told("saving-words", found.words, false);
            byId("saving-words").append(el("p", { class: "key" }, sample("out", "taken out"), sample("put", "put in")));
            return this.picture.light(lit(found.steps));
        } catch (error) {
            if (!(error instanceof Refused)) throw error;
            this.picture.light();
            const fields = [...SAVINGS[which].points].map((letter, at) => [letter.toLowerCase(), points[at]]);
            return told("saving-words", [refusedWords(error, outside(fields, this.session.n))], true);
        }
    }
}

const TITLES = { exchange: "Exchange p-q and x-y", move: "Move c from x and y to u and v", crossing: "Cross p-q, centres r and s" };

// The edges that a saving takes out and puts in.
function lit(steps) {
    const every = list => [...new Map(list.filter(([a, b]) => a !== b).map(e => [name(...e), edge(...e)])).values()];
    return { edges: { out: every(steps.flatMap(step => step.out)), put: every(steps.flatMap(step => step.put)) } };
}

export class WallPanel {
    constructor(session) {
        Object.assign(this, { session, page: 1 });
        on(byId("page-before"), "click", () => this.go(this.page - 1));
        on(byId("page-after"), "click", () => this.go(this.page + 1));
        on(byId("page-number"), "change", event => this.go(Number(event.target.value)));
        session.on("board", () => { this.page = 1; });
        session.on("marks", () => this.show());
    }

    go(page) {
        this.page = Math.min(pageCount(this.session.n), Math.max(1, Math.floor(page) || 1));
        this.show();
    }

    // Shows the page, where its panel is seen.
    show() {
        if (byId("panel-wall").hidden || !this.session.board) return;
        byId("page-number").value = this.page;
        byId("page-count").textContent = `of ${pageCount(this.session.n)}`;
        byId("wall").textContent = pageText(this.session.lengths, this.session.marks, this.page);
    }

    text() {
        return wallList(this.session.lengths, this.session.marks);
    }
}

export { BadPages, readList };

export class SlipPanel {
    constructor(session) {
        Object.assign(this, { session, slip: 0n });
        on(byId("show-slip"), "click", () => this.typed());
        on(byId("slip-number"), "keydown", event => event.key === "Enter" && this.typed());
        on(byId("release"), "click", () => this.show(release(this.slip)));
        session.on("verdict", () => this.follow());
        this.show(0n);
    }

    // Shows the slip of another verdict.
    follow() {
        const { verdict } = this.session;
        if (verdict && verdict !== this.verdict) this.show(verdict.slip);
        this.verdict = verdict;
    }

    // The slip whose number is typed in.
    typed() {
        const digits = byId("slip-number").value.trim();
        const fits = /^[0-9]{1,20}$/.test(digits) && BigInt(digits) < 2n ** 64n;
        if (fits) this.show(BigInt(digits));
        else byId("slip-words").textContent = `expected a slip from 0 to ${2n ** 64n - 1n}, found "${digits.slice(0, 40)}"`;
    }

    show(slip) {
        const told = tellSlip(slip);
        this.slip = slip;
        byId("slip-number").value = String(slip);
        byId("slip-words").textContent = told.words;
        byId("release").disabled = told.released;
        for (const who of ["examiner", "candidate"]) {
            byId(`${who}-bytes`).textContent = [...told[who]].join(" ");
            byId(`${who}-words`).textContent = told[`${who}Words`];
        }
    }
}
