// The board's box: a text of some kind, read when it is asked for.
import { BadBoard, boardOf } from "revosti/board";
import { byId, el, on } from "revosti/dom";
import { Editor } from "revosti/editor";
import { RULES } from "revosti/words";

export class BoardPanel {
    constructor({ onBoard }) {
        Object.assign(this, { onBoard, used: "" });
        this.editor = new Editor(byId("board-editor"), { label: "The board" });
        byId("board-rule").append(...Object.entries(RULES).map(([rule, name]) => el("option", { value: rule }, name)));
        on(byId("board-kind"), "change", () => this.showRule());
        on(byId("use-board"), "click", () => this.use());
        on(byId("board-editor"), "keydown", event => {
            if (event.key === "Enter" && (event.ctrlKey || event.metaKey)) this.use();
        });
    }

    // Whether the box has a text that is not in use.
    get changed() {
        return this.editor.text !== this.used;
    }

    showRule() {
        byId("rule-label").hidden = byId("board-kind").value !== "coordinates";
    }

    // Shows a board that is in use.
    put(board) {
        byId("board-kind").value = board.written;
        if (board.rule) byId("board-rule").value = board.rule;
        this.showRule();
        if (board.text !== this.editor.text) this.editor.set(board.text);
        this.used = this.editor.text;
        this.fault(null);
    }

    // Has the board used that the box describes, or tells what is wrong.
    use() {
        try {
            const board = boardOf(this.editor.text, byId("board-kind").value, Number(byId("board-rule").value));
            this.fault(null);
            this.onBoard(board);
        } catch (error) {
            if (!(error instanceof BadBoard)) throw error;
            this.fault(error);
        }
    }

    fault(error) {
        const box = byId("board-fault");
        box.hidden = !error;
        box.textContent = error ? `${error.line ? `Line ${error.line}: ` : ""}${error.words}` : "";
        this.editor.mark("fault", error ? error.line : 0);
    }
}
