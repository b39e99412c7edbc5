"""The page says what the command says: verdicts and what explains them, slips, savings, tours, texts, sets, wall lists; and
finds the same cases and writes the same texts."""

import random
import struct

from tests.support import ROOT, texts
from tests.support.packing import packed
from tests.support.page.acting import Shared

from revosti import OPEN, PENDING, STRUCK, Refusal, check_tour, fresh_marks, marks_size, measure, place, read_tsplib, release
from revosti_command.case import case_of
from revosti_command.explain import told
from revosti_command.fingerprint import fingerprint, reason, text_of
from revosti_command.lengths import Lengths
from revosti_command.marks import BadMarks, read_marks
from revosti_command.pages import BadPages, other_length, read_list, wall_list
from revosti_command.parts import Beside, Record, join, split
from revosti_command.read import pack, pack_beside
from revosti_command.saving import SAVINGS, tell
from revosti_command.segment import segment_of
from revosti_command.slip import tell_slip
from revosti_command.tour import BadTour, read_tour, struck_legs, tell_tour, wrong_tour
from revosti_command.verdict import judge
from revosti_command.words import Complaint
from revosti_command.write import unpack, unpack_beside

NINE, EXAMPLES = ROOT / "tests/command/nine.txt", ROOT / "examples"
BOARD = pack(NINE.read_text(encoding="utf-8")).parts
LENGTHS = Lengths(BOARD.n, measure(BOARD.n, BOARD.rule, BOARD.points))
EDGES = BOARD.n * (BOARD.n - 1) // 2
IMPORT = """
const names = ["board", "case", "explain", "lengths", "pages", "parts", "read", "saving", "sets", "slip", "tour", "tsplib", "write"];
const [board, kase, explain, lengths, pages, parts, read, saving, sets, slip, tour, tsplib, write]
    = await Promise.all(names.map(name => import(`revosti/${name}`)));
const here = board.boardOf(given[0]);
const bytes = list => Uint8Array.from(list);
const tried = (Fault, call, words = error => error.message) => {
    try {
        return call();
    } catch (error) {
        if (!(error instanceof Fault)) throw error;
        return words(error);
    }
};
"""


class Page(Shared):
    """A page with the board of nine points."""

    def page(self, script, *given):
        """What a script answers that has the page's modules and the board."""
        return self.browser.run(IMPORT + script, unpack(BOARD._replace(records=[], tail=b"")), *given)


def changed(r, records):
    """Records with a few numbers changed, cut off or put in."""
    records = [list(record) for record in records]
    for _ in range(r.choice([1, 1, 2, 3])):
        at = r.randrange(len(records))
        way = r.randrange(6)
        if way == 0:
            records = records[:at + 1]
        elif way == 1:
            del records[at]
            records = records or [[1, 1, 2, 0, 0, 3, 0, 0]]
        else:
            records[at][r.randrange(8)] = r.choice([0, 1, 2, 3, 4, 5, r.randrange(12), len(records) + 1, 65535])
    return records


def other_closing(r):
    """The text of the nine points' sheet with another crossing, or a new order, in the place of a crossing."""
    number = r.choice([at for at, record in enumerate(BOARD.records, 1) if record.kind == 3])
    record, k = BOARD.records[number - 1], case_of(BOARD, LENGTHS, fresh_marks(BOARD.n), number).k
    known = sorted({point for e in k for point in e})
    if r.random() < 0.3:
        a, b = r.choice([e for e in k if record.c not in e and record.d not in e] or k)
        closing = f"crossing {a}-{b}, centres {record.c} {record.d}"
    else:
        u, v = r.choice([r.sample(known, 2), r.sample(range(1, BOARD.n + 1), 2), [known[0]] * 2])
        stretch = segment_of(k, u, v) or [u, v]
        inner = r.sample(stretch[1:-1], len(stretch) - 2)
        wrong = r.choice([inner, inner, inner, inner[1:], [*inner, *inner[:1]], [*inner, r.randrange(1, BOARD.n + 1)]])
        closing = "order " + r.choice(["-".join(map(str, [u, *wrong, v])), f"from {u} to {v}"])
    rows = unpack_beside(Beside(BOARD.n, b"", BOARD.records, b"")).splitlines()
    rows[number - 1] = rows[number - 1].partition(": ")[0] + f": {closing}"
    return "".join(f"{row}\n" for row in rows)


def some_marks(r, pending):
    """A set with most edges open."""
    return packed([r.choice([OPEN] * 8 + [STRUCK] + [PENDING] * pending) for _ in range(EDGES)])


class Verdicts(Page):
    """Verdicts on changed sheets, over fresh marks and others."""

    SCRIPT = """
    return given[1].map(([text, marks, action]) => {
        const sheet = read.packBeside(text), records = sheet.parts.tail.length ? [] : sheet.parts.records;
        const verdict = here.lengths[action](bytes(marks), records);
        return [String(verdict.slip), [...verdict.left], explain.toldText(sheet, verdict)];
    });
    """

    def test_what_is_told(self):
        r, tries, expected = random.Random(3), [], []
        for _ in range(400):
            records = [Record(*record) for record in changed(r, BOARD.records)]
            text = unpack_beside(Beside(BOARD.n, b"", records, b"")) if r.random() < 0.6 else other_closing(r)
            marks = fresh_marks(BOARD.n) if r.random() < 0.7 else some_marks(r, r.random() < 0.2)
            action = r.choice(["mark", "ask"])
            tries.append([text, list(marks), action])
            sheet = pack_beside(Beside(BOARD.n, b"", [], b""), text)
            verdict = judge(getattr(Lengths, action), LENGTHS, bytearray(marks), sheet.parts)
            expected.append([str(verdict.slip), list(verdict.left), told(sheet, verdict)])
        self.assertEqual(self.page(self.SCRIPT, tries), expected)
        met = {int(slip) & 255 for slip, _, _ in expected}
        self.assertLessEqual({0, 8, 9, 10, 11, 12, 14, 15, 16, 20, 23, 24}, met)

    def test_sheets_that_are_no_records(self):
        bad = ["", "# nothing\n", "strike 1-2, split at 3\nbytes 01 02\n", "strike 1-2, split at 3\n" * 4001]
        sheets = [pack_beside(Beside(BOARD.n, b"", [], b""), text) for text in bad]
        expected = [told(sheet, judge(Lengths.mark, LENGTHS, fresh_marks(BOARD.n), sheet.parts)) for sheet in sheets]
        found = self.page(self.SCRIPT, [[text, list(fresh_marks(BOARD.n)), "mark"] for text in bad])
        self.assertEqual([words for _, _, words in found], expected)


class Cases(Page):
    """The case of each record, and the texts of sheets."""

    def test_cases(self):
        found = self.page("""
            const sheet = read.pack(given[1]), marks = here.lengths.fresh();
            return sheet.parts.records.map((_, at) => { const c = kase.caseOf(sheet.parts.records, here.lengths, marks, at + 1);
                return [c.k, c.points, c.crossed, c.pairs, c.due]; });""", NINE.read_text(encoding="utf-8"))
        cases = [case_of(BOARD, LENGTHS, fresh_marks(BOARD.n), number) for number in range(1, len(BOARD.records) + 1)]
        pairs = [[[list(e) for e in c.k], c.points, list(c.crossed) if c.crossed else None, [list(p) for p in c.pairs],
            [list(p) for p in c.due]]
                 for c in cases]
        self.assertEqual(found, pairs)
        self.assertLess(0, sum(len(c.pairs) for c in cases))

    def test_a_new_order(self):
        board, text = (EXAMPLES / "stretch.tsp").read_bytes(), (EXAMPLES / "stretch.txt").read_text(encoding="utf-8")
        sheet = pack_beside(Beside(read_tsplib(board).n, board, [], b""), text)
        number = next(at for at, record in enumerate(sheet.parts.records, 1) if record.kind == 4)
        case = case_of(sheet.parts, Lengths(*read_tsplib(board)), fresh_marks(sheet.parts.n), number)
        found = self.page("""const b = board.boardOf(given[1]), records = read.packBeside(given[2]).parts.records;
            return [given[3], given[3] + 1].map(at => { const c = kase.caseOf(records, b.lengths, b.lengths.fresh(), at);
                return [c.k, c.points, c.stretch.points, c.stretch.length, c.order.points,
                    c.order.length]; });""", board.decode(), text, number)
        self.assertEqual(found,
            [[[list(e) for e in case.k], case.points, case.stretch.points, case.stretch.length, case.order.points, case.order.length]] * 2)

    def test_a_record_that_marking_does_not_get_to(self):
        records = [[1, 1, 2, 0, 0, 3, 2, 0], [2, 1, 1, 0, 0, 3, 0, 0]]
        text = unpack_beside(Beside(BOARD.n, b"", [Record(*record) for record in records], b""))
        found = self.page("return kase.caseOf(read.packBeside(given[1]).parts.records, here.lengths, here.lengths.fresh(), 2)", text)
        with self.assertRaises(Complaint) as raised:
            case_of(pack_beside(Beside(BOARD.n, b"", [], b""), text).parts, LENGTHS, fresh_marks(BOARD.n), 2)
        self.assertEqual(f"--record: {found['words']}", str(raised.exception))

    def test_texts_of_bytes(self):
        r = random.Random(5)
        whole = join(BOARD)
        blocks = [r.randbytes(r.randrange(60)) for _ in range(100)] + [whole[:r.randrange(len(whole))] for _ in range(40)]
        for _ in range(100):
            head = struct.pack("<II", r.randrange(7), 4) + r.randbytes(32)
            blocks.append(head + b"".join(struct.pack("<8H",
                *(r.randrange(5) for _ in range(8))) for _ in range(r.randrange(9))) + r.randbytes(r.randrange(2)))
        found = self.page("return given[1].map(data => parts.split(bytes(data))).map(p => [write.unpack(p), [...parts.join(p)]])",
                          [list(block) for block in blocks])
        self.assertEqual(found, [[unpack(split(block)), list(block)] for block in blocks])


class Others(Page):
    """Slips, savings, tours, TSPLIB texts, sets and wall lists."""

    def test_slips(self):
        r = random.Random(7)
        slips = [r.choice([0, r.randrange(30)]) | r.randrange(300) << 8 | r.randrange(300) << 24 | r.randrange(2) << 40 for _ in range(60)]
        slips += [2**64 - 1, 0, release(0)]
        found = self.page("return given[1].map(number => { const t = slip.tellSlip(BigInt(number));"
                          "return `${t.words}\\nThe examiner sees ${t.examiner.join(' ')}: ${t.examinerWords}\\n"
                          "The candidate sees ${t.candidate.join(' ')}: ${t.candidateWords}`; })", [str(slip) for slip in slips])
        self.assertEqual(found, [tell_slip(slip) for slip in slips])

    def test_savings(self):
        r, asked, expected = random.Random(9), [], []
        for _ in range(150):
            which = r.choice(list(SAVINGS))
            points = [r.randrange(1, BOARD.n + 1) for _ in SAVINGS[which].points.split()]
            try:
                words = tell(LENGTHS, which, points)
            except Refusal as refusal:
                words = f"refused {refusal.number}"
            asked.append([which, points])
            expected.append(words)
        found = self.page("""return given[1].map(([which, points]) => tried(lengths.Refused,
            () => saving.tellSaving(here.lengths, which, points).words.join("\\n"), refused => `refused ${refused.number}`))""", asked)
        self.assertEqual(found, expected)
        self.assertLess(30, sum(not words.startswith("refused") for words in expected))

    def test_tours(self):
        marks = some_marks(random.Random(11), False)
        asked = ["1,2,3,4,5,6,7,8,9", "9 8 7 6 5 4 3 2 1", "1,2,3", "", "1,1,2,3,4,5,6,7,8", "0,2,3", "1,,2", "1;2", "70000", "-1",
                 "x" * 50, "0000000001 2", "TYPE : TOUR\nTOUR_SECTION\n1 2 3\n4 5 6 7 8 9\n-1\nEOF\n", "TYPE : TSP\nTOUR_SECTION\n1\n-1\n",
                 "TOUR_SECTION 1 2 x"]
        found = self.page("""const marks = bytes(given[2]);
            const told = points => tried(lengths.Refused,
                () => tour.tourWords(here.lengths.tour(marks, points).length, tour.struckLegs(here.n, marks, points)),
                refused => `${refused.number} ${tour.wrongTour(here.n, points)}`);
            return given[1].map(text => tried(tour.BadTour, () => told(tour.readTour(text))));""", asked, list(marks))
        self.assertEqual(found, [self.tour(text, marks) for text in asked])

    def tour(self, text, marks):
        """What the command says of a tour."""
        try:
            points = read_tour(text)
            length, _ = check_tour(LENGTHS.n, LENGTHS.table, marks, points)
            return tell_tour(length, struck_legs(LENGTHS.n, marks, points))
        except BadTour as error:
            return str(error)
        except Refusal as refusal:
            return f"{refusal.number} {wrong_tour(LENGTHS.n, points)}"

    def test_texts_of_boards(self):
        found = self.page("""return given[1].map(data => tried(tsplib.BadBoard, () => tsplib.readText(bytes(data)) && null,
            error => [error.line, error.words]))""",
                          [list(data) for data in [*(fault[0] for fault in texts.FAULTS), *texts.SQUARES.values()]])
        self.assertEqual(found, [[line, words] for _, line, words in texts.FAULTS] + [None] * len(texts.SQUARES))

    def test_sets(self):
        good = bytes(some_marks(random.Random(13), True))
        tried = [good, good[:-1], good + b"\0", bytes(EDGES), b"", b"\xff" * marks_size(BOARD.n), good[:-1] + bytes([good[-1] | 0x80])]
        found = self.page("return given[1].map(data => tried(sets.BadSet, () => [...sets.readSet(bytes(data), here.n)]))",
                          [list(data) for data in tried])
        expected = []
        for data in tried:
            try:
                read_marks(data, BOARD.n)
                expected.append(list(data))
            except BadMarks as error:
                expected.append(str(error))
        self.assertEqual(found, expected)

    def test_fingerprints(self):
        mine, square = fingerprint(LENGTHS), fingerprint(Lengths(*read_tsplib(texts.text(texts.NODES))))
        low = mine._replace(high=square.table)
        prints = [text_of(one).decode() for one in (mine, square, low, square._replace(high=mine.table),
            square._replace(high="0" * 64, cut=mine.table))]
        found = self.page("""return [sets.fingerprintText(here.lengths), ...given[1].map(text => tried(sets.BadSet,
            () => sets.hold(sets.readFingerprint(text), here.lengths) ?? null))]""",
                          [*prints, "", "points 9\n", "points 9\npoints 9\n", "points 1000\n", "# no\ntable 12\n", "what 1\n"])
        self.assertEqual(found[0], text_of(mine).decode())
        self.assertEqual(found[1:6], [None, reason(square, mine), reason(low, mine), reason(square._replace(high=mine.table), mine), None])
        line = 'expected "points", "table", "high" or "cut", each once and with its value'
        lacks = 'expected "points" and "table" with their values'
        self.assertEqual(found[6:], [lacks, lacks, f"line 2: {line}", f"line 1: {line}", f"line 2: {line}", f"line 1: {line}"])

    def test_wall_lists(self):
        marks = some_marks(random.Random(15), True)
        good = wall_list(LENGTHS, marks)
        row = good.index(b"\n") + 1
        tried = [good, good[:-1], good[:row] + good, b"", good.replace(b" 2 ", b" 3 ", 1), good[:30] + b"x" + good[31:],
            good[row:] + good[:row]]
        tried.append(good.replace(str(LENGTHS.table[place(BOARD.n, 1, 2)]).encode(), b"%04d" % 7, 1))
        other = bytes(good).replace(b"%7d" % LENGTHS.table[3], b"%7d" % (LENGTHS.table[3] + 1), 1)
        found = self.page("""return [pages.wallList(here.lengths, bytes(given[2])), ...given[1].map(data => tried(pages.BadPages,
            () => [...pages.readList(bytes(data), here.lengths)]))]""", [list(data) for data in [*tried, other]], list(marks))
        self.assertEqual(found[0], good.decode())
        self.assertEqual(found[1:-1], [self.wall(data) for data in tried])
        self.assertEqual(found[-1], other_length(read_list(other)[1], LENGTHS.table, "the board"))

    def wall(self, data):
        """What the command says of a wall list; the hint at an option is its own."""
        try:
            n, _, marks = read_list(data)
            return list(marks) if n == BOARD.n else n
        except BadPages as error:
            return str(error).partition("; with --points")[0]
