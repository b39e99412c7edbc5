//! Inputs for the benchmark.

use crate::bytes::DESKS_BYTES;
use crate::intervals::Intervals;
use crate::kit::generate::boards::{self, Board};
use crate::kit::generate::drafts::{sheet_bytes, CaseNote, Draft};
use crate::kit::generate::limits::{Limited, Width};
use crate::kit::generate::rng::Rng;
use crate::kit::generate::search::Effort;
use crate::kit::generate::sets;
use crate::kit::generate::sheets::{self, Plan};
use crate::kit::programs::checker::Checker;
use crate::lengths::edge_count;
use crate::sentence::SENTENCE_BYTES;
use crate::sheet::{Record, Sheet};

/// One input with the buffers of a call.
pub struct Workload {
    pub name: String,
    /// What the input is made of.
    pub note: String,
    pub call: Call,
}

pub enum Call {
    Mark {
        n: u32,
        table: Vec<u8>,
        marks: Vec<u8>,
        sheet: Vec<u8>,
    },
    /// All splits at some points for one edge.
    List {
        n: u32,
        table: Vec<u8>,
        marks: Vec<u8>,
        splits: Vec<[u16; 3]>,
        list: Vec<u8>,
    },
    Measure {
        n: u32,
        rule: u32,
        coordinates: Vec<u8>,
        table: Vec<u8>,
    },
    MarkBetween {
        n: u32,
        low: Vec<u8>,
        high: Vec<u8>,
        marks: Vec<u8>,
        sheet: Vec<u8>,
    },
    ListBetween {
        n: u32,
        low: Vec<u8>,
        high: Vec<u8>,
        marks: Vec<u8>,
        splits: Vec<[u16; 3]>,
        list: Vec<u8>,
    },
    /// A TSPLIB text.
    Read {
        text: Vec<u8>,
        table: Vec<u8>,
    },
    /// A sheet that is handed in at a desk, and turns until it has no line left.
    Turns {
        n: u32,
        table: Vec<u8>,
        marks: Vec<u8>,
        sheet: Vec<u8>,
    },
    /// The first line of a sheet, told in words.
    Tell {
        n: u32,
        table: Vec<u8>,
        marks: Vec<u8>,
        sheet: Vec<u8>,
        text: Vec<u8>,
    },
}

/// The buffers that calls change, as they stand before each run.
pub struct Buffers {
    marks: Vec<u8>,
    list: Vec<u8>,
    table: Vec<u8>,
    text: Vec<u8>,
}

impl Call {
    pub fn buffers(&self) -> Buffers {
        let mut buffers = Buffers { marks: vec![], list: vec![], table: vec![], text: vec![] };
        match self {
            Call::Mark { marks, .. } | Call::MarkBetween { marks, .. } | Call::Turns { marks, .. } => {
                buffers.marks = marks.clone()
            }
            Call::List { list, .. } | Call::ListBetween { list, .. } => buffers.list = list.clone(),
            Call::Measure { table, .. } | Call::Read { table, .. } => buffers.table = table.clone(),
            Call::Tell { text, .. } => buffers.text = text.clone(),
        }
        buffers
    }

    /// Runs the call once on buffers that were set anew; answers a number to compare.
    #[inline(never)]
    pub fn run(&self, checker: &dyn Checker, buffers: &mut Buffers) -> u64 {
        match self {
            Call::Mark { n, table, sheet, .. } => checker.mark_sheet(*n, table, &mut buffers.marks, sheet),
            Call::List { n, table, marks, splits, .. } => {
                splits.iter().map(|&abc| checker.list_pairs(*n, table, marks, abc, &mut buffers.list)).sum()
            }
            Call::Measure { n, rule, coordinates, .. } => checker.measure(*n, *rule, coordinates, &mut buffers.table),
            Call::MarkBetween { n, low, high, sheet, .. } => {
                checker.mark_between(*n, low, high, &mut buffers.marks, sheet)
            }
            Call::ListBetween { n, low, high, marks, splits, .. } => {
                let list = |&abc: &[u16; 3]| checker.list_between(*n, low, high, marks, abc, &mut buffers.list);
                splits.iter().map(list).sum()
            }
            Call::Read { text, .. } => checker.read_tsplib(text, &mut buffers.table),
            Call::Turns { n, table, sheet, .. } => by_turns(checker, *n, table, &mut buffers.marks, sheet),
            Call::Tell { n, table, marks, sheet, .. } => {
                checker.tell_line(*n, table, marks, sheet, 1, &mut buffers.text)
            }
        }
    }

    /// The length of the text that is read, or written for this answer, if there is one.
    pub fn text_size(&self, answer: u64) -> Option<u64> {
        match self {
            Call::Read { text, .. } => Some(text.len() as u64),
            Call::Tell { .. } => Some(answer / 65_536),
            _ => None,
        }
    }

    /// The same sheet marked at once.
    pub fn at_once(&self) -> Option<Call> {
        let Call::Turns { n, table, marks, sheet } = self else { return None };
        Some(Call::Mark { n: *n, table: table.clone(), marks: marks.clone(), sheet: sheet.clone() })
    }
}

/// Hands a sheet in at desk 1 of open desks and takes turns to its end. Answers the number of marking.
fn by_turns(checker: &dyn Checker, n: u32, table: &[u8], marks: &mut [u8], sheet: &[u8]) -> u64 {
    let mut desks = [0; DESKS_BYTES];
    assert_eq!(checker.open_desks(&mut desks) + checker.hand_in(&mut desks, 1, n, table, marks, sheet), 0);
    loop {
        let answer = checker.turn(&mut desks, n, table, marks, sheet);
        if answer >> 56 == 0 {
            return answer % (1 << 40);
        }
    }
}

const SIZES: [usize; 3] = [30, 90, 180];

/// A split under K of 11 edges: the sheet up to its record, and up to the end of its chain. The instructions between
/// the two are those of the split; they are counted, not timed.
const BEFORE: &str = "line 180 before the split under 11 edges";
const AFTER: &str = "line 180 after the split under 11 edges";

/// Measuring the same points by EUC_2D, ATT, MAN_2D and MAX_2D.
const MEASURING: [(&str, u32); 4] =
    [("measure 180", 1), ("measure 180 att", 3), ("measure 180 man", 4), ("measure 180 max", 5)];

/// The sheet of 90 points and the splits there, over two tables.
const MARK_BETWEEN: &str = "mark 90 deep between";
const LIST_BETWEEN: &str = "list 90 between";

/// A sheet of 90 points whose cases are closed by new orders of segments where there are any.
const SEGMENTS: &str = "mark 90 segments";

/// Reading a text of 180 points with weights.
const READING: &str = "read 180 weights";

/// The sheet of 180 points by turns.
const TURNS: &str = "turns 180 deep";

/// The first line of the shallow sheet of 180 points, told.
const TELLING: &str = "tell 180";

/// The timed inputs: marking and listing at 30, 90 and 180 points, measuring 180, marking and listing over two tables,
/// reading a text of 180, a sheet of 180 by turns, a sheet of 90 with new orders of segments, and a line of 180 told.
pub fn names() -> Vec<String> {
    let marking = SIZES.iter().flat_map(|n| ["shallow", "deep"].map(|kind| format!("mark {n} {kind}")));
    let listing = SIZES.iter().map(|n| format!("list {n}"));
    let measuring = MEASURING.iter().map(|(name, _)| name.to_string());
    let between = [MARK_BETWEEN, LIST_BETWEEN].map(str::to_string);
    marking
        .chain(listing)
        .chain(measuring)
        .chain(between)
        .chain([READING, TURNS, SEGMENTS, TELLING].map(str::to_string))
        .collect()
}

/// The inputs whose instructions are counted.
pub fn counted() -> Vec<String> {
    names().into_iter().chain([BEFORE.to_string(), AFTER.to_string()]).collect()
}

/// The input of this name.
pub fn named(name: &str) -> Option<Workload> {
    match name.split(' ').collect::<Vec<_>>()[..] {
        _ if name == SEGMENTS => Some(reordering()),
        ["mark", n, kind] => Some(marking(n.parse().ok()?, kind == "deep")),
        ["list", n] => Some(listing(n.parse().ok()?)),
        ["measure", ..] => MEASURING.iter().find(|row| row.0 == name).map(|&(name, rule)| measuring(name, rule)),
        _ if name == MARK_BETWEEN => Some(marking_between()),
        _ if name == LIST_BETWEEN => Some(listing_between()),
        _ if name == READING => Some(reading()),
        _ if name == TURNS => Some(turning()),
        _ if name == TELLING => Some(telling()),
        _ if name == BEFORE => Some(under_eleven(false)),
        _ if name == AFTER => Some(under_eleven(true)),
        _ => None,
    }
}

/// The bytes of 32-bit numbers.
fn entries(numbers: &[u32]) -> Vec<u8> {
    numbers.iter().flat_map(|number| number.to_le_bytes()).collect()
}

/// So many records of a sheet on a board, from fresh marks.
fn sheet(name: String, note: String, board: &Board, records: &[Record]) -> Workload {
    Workload {
        name,
        note,
        call: Call::Mark {
            n: u32::from(board.n),
            table: entries(&board.table),
            marks: sets::fresh(board.n),
            sheet: sheet_bytes(records),
        },
    }
}

/// Points on the largest square under EUC_2D or CEIL_2D, the same in every run.
fn random_board(n: usize) -> Board {
    let mut rng = Rng::new(1, n as u64);
    let coordinates = boards::random_coordinates(&mut rng, n, 1_000_000);
    Board::from_points(rng.between(1, 2) as u32, coordinates)
}

/// A sheet of several lines, all accepted, from fresh marks; deep ones have six splits one inside another.
fn lines(lengths: &Intervals, deep: bool) -> Draft {
    lines_by(lengths, if deep { Effort::DEEP } else { Effort::LARGE }, deep)
}

/// The same with this effort.
fn lines_by(lengths: &Intervals, effort: Effort, deep: bool) -> Draft {
    let plan = Plan { effort, lines: 12, edges: 40, want: if deep { 6 } else { 1 }, gaps: 0, most_records: 4_000 };
    let n = lengths.order.n;
    sheets::valid(&mut Rng::new(2, u64::from(n)), lengths, &sets::fresh(n), plan)
}

fn marking(n: usize, deep: bool) -> Workload {
    let board = random_board(n);
    let draft = lines(&Intervals::exact(board.n, &board.table), deep);
    sheet(format!("mark {n} {}", if deep { "deep" } else { "shallow" }), note(&draft), &board, &draft.records)
}

/// The sheet of `marking`, by turns.
fn turning() -> Workload {
    let Workload { note, call, .. } = marking(180, true);
    let Call::Mark { n, table, marks, sheet } = call else { unreachable!("a sheet is marked") };
    Workload { name: TURNS.to_string(), note, call: Call::Turns { n, table, marks, sheet } }
}

/// A deep sheet of 90 points with new orders.
fn reordering() -> Workload {
    let board = random_board(90);
    let draft = lines_by(&Intervals::exact(board.n, &board.table), Effort { orders: 100, ..Effort::DEEP }, true);
    let (orders, points) = (of_kind(&draft, Sheet::CASE_REORDERING), of_kind(&draft, Sheet::SEGMENT_POINT));
    let note = format!("{}, {orders} new orders of {points} points", note(&draft));
    sheet(SEGMENTS.to_string(), note, &board, &draft.records)
}

/// The records of a kind; a draft without gaps has no others than those that are entered.
fn of_kind(draft: &Draft, kind: u16) -> usize {
    draft.records.iter().filter(|record| record[0] == kind).count()
}

/// The first line of the shallow sheet of `marking`; the buffer holds any text.
fn telling() -> Workload {
    let Workload { call, .. } = marking(180, false);
    let Call::Mark { n, table, marks, sheet } = call else { unreachable!("a sheet is marked") };
    let pairs = edge_count(n as u16 - 1);
    let text = vec![0; SENTENCE_BYTES * pairs];
    Workload {
        name: TELLING.to_string(),
        note: format!("{pairs} sentences"),
        call: Call::Tell { n, table, marks, sheet, text },
    }
}

/// What a sheet is made of.
fn note(draft: &Draft) -> String {
    let depth = draft.notes.iter().map(|note| note.depth).max().unwrap_or(0);
    let splits = of_kind(draft, Sheet::LINE) + of_kind(draft, Sheet::CASE_SPLIT);
    format!("{} records, {splits} splits, up to {depth} one inside another", draft.records.len())
}

/// The board of 90 points, each length known within half a hundredth.
fn limited_board() -> Limited {
    Limited::apart(&mut Rng::new(4, 90), &random_board(90), Width::Narrow, 5)
}

fn marking_between() -> Workload {
    let limited = limited_board();
    let draft = lines(&limited.lengths(), true);
    Workload {
        name: MARK_BETWEEN.to_string(),
        note: note(&draft),
        call: Call::MarkBetween {
            n: u32::from(limited.n),
            low: entries(&limited.low),
            high: entries(&limited.high),
            marks: sets::fresh(limited.n),
            sheet: sheet_bytes(&draft.records),
        },
    }
}

/// The splits of `listing`.
fn listing_between() -> Workload {
    let limited = limited_board();
    Workload {
        name: LIST_BETWEEN.to_string(),
        note: SPLITS.to_string(),
        call: Call::ListBetween {
            n: u32::from(limited.n),
            low: entries(&limited.low),
            high: entries(&limited.high),
            marks: sets::fresh(limited.n),
            splits: splits(limited.n),
            list: vec![0; 4 * limited.low.len()],
        },
    }
}

/// The deep sheet of 180 points, cut at its first split under K of 11 edges: before it, where its record is a closing
/// that does not cross, or after the last case of its chain.
fn under_eleven(after: bool) -> Workload {
    let board = random_board(180);
    let draft = lines(&Intervals::exact(board.n, &board.table), true);
    let at = first_under_eleven(&draft).expect("the deep sheet has a split under 11 edges");
    let mut records = draft.records;
    let cases =
        records[at..].iter().take_while(|record| record[0] == Sheet::CASE_CROSSING && record[7] != 0).count() + 1;
    records.truncate(at + cases);
    if !after {
        let [_, a, b, _, _, _, _, next] = records[at - 1];
        records[at - 1] = [Sheet::CASE_CROSSING, a, b, a, b, a, b, next];
    }
    let name = if after { AFTER } else { BEFORE };
    sheet(name.to_string(), format!("{cases} cases"), &board, &records)
}

/// The first record that holds a split under K of 11 edges.
fn first_under_eleven(draft: &Draft) -> Option<usize> {
    let holds = |note: &&CaseNote| note.known.len() == 11 && draft.records[note.index - 1][0] == Sheet::CASE_SPLIT;
    draft.notes.iter().find(holds).map(|note| note.index)
}

const SPLITS: &str = "20 random splits, fresh marks";

/// Twenty random splits: an edge and a point off it.
fn splits(n: u16) -> Vec<[u16; 3]> {
    let mut rng = Rng::new(3, u64::from(n));
    (0..20).map(|_| rng.points(n, 3).try_into().unwrap()).collect()
}

fn listing(n: usize) -> Workload {
    let board = random_board(n);
    Workload {
        name: format!("list {n}"),
        note: SPLITS.to_string(),
        call: Call::List {
            n: n as u32,
            marks: sets::fresh(board.n),
            list: vec![0; 4 * board.table.len()],
            table: entries(&board.table),
            splits: splits(board.n),
        },
    }
}

fn measuring(name: &str, rule: u32) -> Workload {
    let board = random_board(180);
    let coordinates = entries(&board.measured.unwrap().coordinates);
    Workload {
        name: name.to_string(),
        note: format!("rule {rule}, coordinates to 1,000,000"),
        call: Call::Measure { n: 180, rule, coordinates, table: vec![0; 4 * board.table.len()] },
    }
}

/// A text with the lengths of a board as its weights, a row a line.
fn reading() -> Workload {
    let board = random_board(180);
    let mut text = String::from("NAME : board\nTYPE : TSP\nDIMENSION : 180\nEDGE_WEIGHT_TYPE : EXPLICIT\n");
    text.push_str("EDGE_WEIGHT_FORMAT : UPPER_ROW\nEDGE_WEIGHT_SECTION\n");
    let mut rest = &board.table[..];
    for point in 1..board.n {
        let (row, behind) = rest.split_at(usize::from(board.n - point));
        text.push_str(&(row.iter().map(u32::to_string).collect::<Vec<_>>().join(" ") + "\n"));
        rest = behind;
    }
    text.push_str("EOF\n");
    Workload {
        name: READING.to_string(),
        note: format!("{} bytes of text, a row a line", text.len()),
        call: Call::Read { text: text.into_bytes(), table: vec![0; 4 * board.table.len()] },
    }
}
