// The page: its parts, joined.
import { BadBoard, boardOf } from "revosti/board";
import { BoardPanel } from "revosti/boardpanel";
import { DesksView } from "revosti/desksview";
import { byId, el, on, sample } from "revosti/dom";
import { NAMES, edgeCount, markOf } from "revosti/edges";
import { EXAMPLES } from "revosti/examples";
import { choose, readFiles, save } from "revosti/files";
import { notice } from "revosti/notice";
import { Opening, halves } from "revosti/opening";
import { CROSSING, STRETCH, join } from "revosti/parts";
import { Picture, caseScene, tourScene } from "revosti/picture";
import { counted, grouped, listed } from "revosti/say";
import { Session } from "revosti/session";
import { fingerprintText } from "revosti/sets";
import { SheetPanel } from "revosti/sheetpanel";
import { tabs } from "revosti/tabs";
import { SavingsPanel, SlipPanel, TourPanel, WallPanel } from "revosti/toolpanels";
import { boardText } from "revosti/write";

const session = new Session();
const picture = new Picture(byId("picture"), { onHole: holeWords });
const sheetPanel = new SheetPanel(session, picture, { onCase: showScene, onWhole: takeBoth });
const boardPanel = new BoardPanel({ onBoard: board => opening.useBoard(board) });
const tourPanel = new TourPanel(session), wallPanel = new WallPanel(session);
new SavingsPanel(session, picture);
new SlipPanel(session);
const opening = new Opening(session, {
    board: board => boardPanel.put(board), sheet: text => sheetPanel.put(text), tour: showTour, desksUsed: () => desks.used,
    boxChanged: board => boardPanel.changed && boardPanel.editor.text !== board.text });
const desks = new DesksView(session, { sheetOf: file => opening.sheetFor(file), editorSheet });

session.on("board", () => {
    picture.setBoard(session.board);
    byId("board-words").textContent = `${counted(session.n, "hole")}, ${counted(edgeCount(session.n), "edge")}, ${session.board.kind}`;
    for (const id of ["save-whole", "save-binary"]) byId(id).disabled = !session.board.coordinates;
});
session.on("marks", showMarks);
session.on("tour", () => showScene(sheetPanel.case));

// The sheet of the editor, for a desk; null where its text is none.
function editorSheet() {
    sheetPanel.editor.flush();
    if (session.textFault) notice(`line ${session.textFault.line}: ${session.textFault.words}`, "bad");
    return session.textFault ? null : session.sheet;
}

// A text in the editor has a board in front: both boxes are filled. Whether it is taken.
function takeBoth(text) {
    const { board, sheet } = halves(text);
    if (board === null || sheet === null) return false;
    try {
        opening.useBoard(boardOf(board)).then(taken => (taken ? sheetPanel.editor.set(sheet) : session.setText(text)));
        return true;
    } catch (error) {
        if (error instanceof BadBoard) return false;
        throw error;
    }
}

function showTour(text) {
    openTab("tour");
    tourPanel.put(text);
}

function showMarks() {
    const counts = Object.entries(session.counts);
    for (const [mark, count] of counts) byId(`show-${mark}`).querySelector("b").textContent = grouped(count);
    byId("picture").setAttribute("aria-label", `The board: ${listed(counts.map(([mark, count]) => counted(count, `${mark} edge`)))}`);
    picture.setMarks(session.marks);
    showScene(sheetPanel.case);
}

// The case at the caret and the tour, on the picture and in its legend.
function showScene(found) {
    if (!session.board) return;
    const scene = caseScene(found), tour = session.tour ? tourScene(session.n, session.marks, session.tour.legs) : {};
    picture.setScene({ ...scene, edges: { ...tour, ...scene.edges } });
    const rows = legendRows(found, scene.edges, tour);
    byId("legend").replaceChildren(...rows.map(row => sample(...row)));
}

function legendRows(found, edges, tour) {
    const rows = [["k", `record ${found?.number}: K`], ["crossed", "crossed"],
        ["stretch", `stretch, length ${grouped(found?.stretch?.length ?? 0)}`],
        ["order", `new order, length ${grouped(found?.order?.length ?? 0)}`], ["named", "pairs with a case"], ["due", "pairs due"]]
        .filter(([kind]) => edges[kind]?.length);
    if (found?.points.length) rows.push(["ring", ringWords(found)]);
    if (tour.tour) rows.push(["tour", `tour: length ${grouped(session.tour.length)}`]);
    if (tour.broken?.length) rows.push(["broken", `struck, in the tour: ${grouped(tour.broken.length)}`]);
    return rows.length ? rows : [["none", "Put the caret on a record: its K, split and pairs are drawn here."]];
}

// What the rings of a case are.
function ringWords({ kind, points }) {
    return { [CROSSING]: `centres ${points.join(" and ")}`,
        [STRETCH]: `from ${points[0]} to ${points[1]}` }[kind] ?? `split at ${points[0]}`;
}

// A hole in words.
function holeWords(hole) {
    const counts = { open: 0, pending: 0, struck: 0 };
    for (let other = 1; other <= session.n; other++) if (other !== hole) counts[NAMES[markOf(session.n, session.marks, hole, other)]]++;
    const at = session.board.coordinates ? ` at ${session.board.coordinates[hole - 1].join(" ")}` : "";
    const told = Object.entries(counts).filter(([, count]) => count).map(([mark, count]) => `${count} ${mark}`);
    return `Hole ${hole}${at}: ${told.join(", ")}`;
}

const openTab = tabs(document.querySelector(".tabs"), name => {
    if (name === "wall") wallPanel.show();
    picture.light();
});
tabs(document.querySelector(".views"), name => (name === "desks" ? desks.show() : picture.resize()));

for (const kind of ["open", "pending", "struck"]) {
    on(byId(`show-${kind}`), "click", event => {
        const shown = event.currentTarget.getAttribute("aria-pressed") !== "true";
        event.currentTarget.setAttribute("aria-pressed", String(shown));
        picture.show(kind, shown);
    });
}
on(byId("zoom-in"), "click", () => picture.zoom(1.4));
on(byId("zoom-out"), "click", () => picture.zoom(1 / 1.4));
on(byId("zoom-fit"), "click", () => picture.fit());

// Opening.
for (const [id, wanted, multiple] of [["open-any", null, true], ["open-sheet", "sheet", false], ["open-set", "set", true],
    ["open-board", "board", false], ["open-tour", "tour", false], ["open-wall", "wall", false]]) {
    on(byId(id), "click", () => choose(byId("chooser"), multiple, async files => opening.open(await readFiles(files), wanted)));
}
for (const event of ["dragenter", "dragover"]) {
    on(document, event, dragged => {
        dragged.preventDefault();
        byId("drop").hidden = !dragged.dataTransfer?.types.includes("Files");
    });
}
on(document, "dragleave", event => { byId("drop").hidden = !event.relatedTarget || byId("drop").hidden; });
on(document, "drop", async event => {
    event.preventDefault();
    byId("drop").hidden = true;
    if (event.dataTransfer?.files.length) await opening.open(await readFiles(event.dataTransfer.files));
});
for (const menu of document.querySelectorAll(".menu")) on(menu, "click",
    event => { if (event.target.closest("button")) menu.open = false; });

// Saving.
function saveSheet(name, data) {
    sheetPanel.editor.flush();
    if (data instanceof Function && session.textFault && name.endsWith(".sheet")) return sheetPanel.editor.go(session.textFault.line);
    save(name, data());
    return session.setText(session.text, true);
}
const partsNow = () => ({ ...session.sheet.parts, rule: session.board.rule, n: session.n, points: session.board.coordinates });
on(byId("save-text"), "click", () => saveSheet("sheet.txt", () => session.text));
on(byId("save-whole"), "click", () => saveSheet("board.txt", () => boardText(partsNow()) + session.text));
on(byId("save-binary"), "click", () => saveSheet("board.sheet", () => join(partsNow())));
on(byId("save-set"), "click", () => {
    save("board.marks", session.marks);
    save("board.marks.fingerprint", fingerprintText(session.lengths));
    session.setMarks(session.marks, true);
    notice("board.marks and board.marks.fingerprint are saved. The browser may ask whether both may be.");
});
on(byId("save-wall"), "click", () => save("wall.txt", wallPanel.text()));

on(window, "beforeunload", event => {
    if (!session.saved.sheet || !session.saved.marks || boardPanel.changed || desks.used) event.preventDefault();
});

// Examples.
byId("examples").append(...Object.entries(EXAMPLES).map(([key, example]) => el("option", { value: key }, example.title)));
on(byId("examples"), "change", async event => {
    const example = EXAMPLES[event.target.value];
    event.target.value = "";
    if (!example || !await opening.mayDrop("sheet") || !await opening.useBoard(boardOf(example.board))) return;
    sheetPanel.put(example.sheet);
});

await opening.useBoard(boardOf(EXAMPLES.six.board));
sheetPanel.put(EXAMPLES.six.sheet);
document.activeElement?.blur();
document.documentElement.dataset.ready = "yes";

export { picture, session, sheetPanel };
