//! Halls: a board, and for each of eight desks a folder with marks and a sheet over it (02, Paper 14).

use crate::bytes::DESKS_BYTES;
use crate::desks::Desks;
use crate::instance::Instance;
use crate::intervals::Intervals;
use crate::kit::damage::sets::SetFault;
use crate::kit::damage::spoil::{self, some_entry};
use crate::kit::generate::boards::{self, Board};
use crate::kit::generate::drafts::{sheet_bytes, Draft, FIRST, NEXT};
use crate::kit::generate::rng::Rng;
use crate::kit::generate::sets;
use crate::kit::generate::sheets::{self, Plan};
use crate::kit::oracle::kept::Kept;
use crate::lengths::edge_count;
use crate::marks::{OPEN, PENDING, STRUCK};
use crate::packed::put_mark;
use crate::sheet::{Record, Sheet};

/// The bytes of a record.
pub const RECORD: usize = 2 * Sheet::FIELDS;

/// What a desk is lent: n, table, marks and sheet.
#[derive(Clone, Debug, PartialEq)]
pub struct Folder {
    pub n: u32,
    pub table: Vec<u8>,
    pub marks: Vec<u8>,
    pub sheet: Vec<u8>,
}

impl Folder {
    pub fn records(&self) -> usize {
        self.sheet.len() / RECORD
    }
}

/// A board with sheets for it.
pub struct Hall {
    pub board: Board,
    pub kept: Kept,
    drafts: Vec<Draft>,
    /// Now and then sheets are made for the marks that they find.
    plan: Plan,
}

/// Sheets that a hall has from the start, all for fresh marks.
const DRAFTS: usize = 2;

impl Hall {
    /// Mostly a small board.
    pub fn new(rng: &mut Rng) -> Hall {
        let most = if rng.chance(4) { 180 } else { 12 };
        let board = std::iter::repeat_with(|| boards::board(rng)).find(|board| board.n <= most).unwrap();
        let kept = Kept::of(rng, &board, 1);
        let plan = Plan { lines: rng.between(2, 6), ..Plan::random(rng, board.n) };
        let mut hall = Hall { board, kept, drafts: vec![], plan };
        for _ in 0..DRAFTS {
            let draft = hall.draft(rng, &sets::fresh(hall.board.n));
            hall.drafts.push(draft);
        }
        hall
    }

    fn draft(&self, rng: &mut Rng, marks: &[u8]) -> Draft {
        sheets::valid(rng, &Intervals::exact(self.board.n, &self.board.table), marks, self.plan)
    }

    /// A folder with fresh marks, and a sheet for them.
    pub fn folder(&self, rng: &mut Rng) -> Folder {
        let spoil::Lent { n, table, marks } = spoil::Lent::new(&self.board, &sets::fresh(self.board.n));
        Folder { n, table, marks, sheet: self.sheet(rng) }
    }

    /// A folder with these marks, and a sheet for them or for fresh ones.
    pub fn folder_with(&self, rng: &mut Rng, marks: &[u8]) -> Folder {
        let mut folder = self.folder(rng);
        folder.marks = marks.to_vec();
        if rng.chance(30) {
            let draft = self.draft(rng, marks);
            if !draft.records.is_empty() {
                folder.sheet = sheet_bytes(&draft.records);
            }
        }
        folder
    }

    /// A sheet for fresh marks: all its lines good, damaged, with a wrong next index, noise, or a line for a kept edge.
    pub fn sheet(&self, rng: &mut Rng) -> Vec<u8> {
        let draft = &self.drafts[rng.below(DRAFTS)];
        if draft.records.is_empty() {
            return sheets::noise(rng, self.board.n);
        }
        match rng.below(12) {
            0..=4 => sheet_bytes(&draft.records),
            5..=7 => sheets::damaged(rng, draft),
            8 => sheet_bytes(&wrong_next(rng, draft, true)),
            9 => sheet_bytes(&wrong_next(rng, draft, false)),
            10 => sheets::noise(rng, self.board.n),
            _ => self.kept.attempt(rng).unwrap_or_else(|| sheet_bytes(&draft.records)),
        }
    }
}

/// The lines of a chain, by their indices.
fn lines(records: &[Record]) -> Vec<u16> {
    let next = |&index: &u16| Some(records[usize::from(index) - 1][NEXT]).filter(|&next| next != 0);
    std::iter::successors(Some(1), next).collect()
}

/// The records of a draft, with the next index of one of its lines above the record count, or not above the records
/// that are entered.
fn wrong_next(rng: &mut Rng, draft: &Draft, above: bool) -> Vec<Record> {
    let mut records = draft.records.clone();
    let (line, count) = (rng.pick(&lines(&records)), records.len() as u16);
    let record = &mut records[usize::from(line) - 1];
    let lower = rng.between(1, usize::from(line)) as u16;
    let entered = [line, lower, if record[FIRST] == 0 { line } else { record[FIRST] }];
    record[NEXT] = if above { rng.pick(&[count + 1, count + 2, 4_001, 65_535]) } else { rng.pick(&entered) };
    records
}

/// What happens to a folder between two turns.
#[derive(Clone, Copy, Debug, PartialEq, Eq)]
pub enum Change {
    NoPoints,
    OtherPoints,
    TableSize,
    Entry,
    SetFault,
    Pending,
    NoRecords,
    BrokenRecord,
    ManyRecords,
    ShorterSheet,
    OtherSheet,
    OtherMarks,
    OtherTable,
}

use Change::*;

impl Change {
    pub const ALL: [(Change, &'static str); 13] = [
        (NoPoints, "another n, outside 4 to 180"),
        (OtherPoints, "another n"),
        (TableSize, "a table of another size"),
        (Entry, "a table entry above 2,000,000"),
        (SetFault, "a faulty set of marks"),
        (Pending, "a pending mark"),
        (NoRecords, "a sheet without records"),
        (BrokenRecord, "a sheet with a broken record"),
        (ManyRecords, "a sheet of 4,001 records"),
        (ShorterSheet, "a sheet cut before the line that waits"),
        (OtherSheet, "another sheet"),
        (OtherMarks, "another mark"),
        (OtherTable, "another length"),
    ];

    /// The refusal that the next turn is due to tell, 0 where the change leaves it open.
    pub fn number(self) -> u64 {
        match self {
            NoPoints => 1,
            OtherPoints | TableSize => 2,
            Entry => 5,
            SetFault => 6,
            Pending => 20,
            NoRecords | BrokenRecord | ManyRecords => 7,
            ShorterSheet => 8,
            OtherSheet | OtherMarks | OtherTable => 0,
        }
    }

    /// Any change that a desk can see whose line at this index waits.
    pub fn random(rng: &mut Rng, index: u16) -> Change {
        let change = rng.pick(&Change::ALL).0;
        if change == ShorterSheet && index < 2 {
            return NoRecords;
        }
        change
    }

    /// Changes a good folder of the hall, in which the line at this index waits.
    pub fn make(self, rng: &mut Rng, hall: &Hall, folder: &mut Folder, index: u16) {
        let (n, places) = (hall.board.n, edge_count(hall.board.n));
        match self {
            NoPoints => folder.n = spoil::no_count(rng, folder.n),
            OtherPoints => folder.n = if folder.n == Instance::MOST_POINTS { folder.n - 1 } else { folder.n + 1 },
            TableSize => folder.table.truncate(folder.table.len() - rng.pick(&[1, 4])),
            Entry => some_entry(rng, &mut folder.table, &[2_000_001, u32::MAX]),
            SetFault => rng.pick(&self::SetFault::with(n)).make(rng, n, &mut folder.marks),
            Pending => put_mark(&mut folder.marks, rng.below(places), PENDING),
            NoRecords => folder.sheet.clear(),
            BrokenRecord => folder.sheet.truncate(folder.sheet.len() - rng.between(1, RECORD - 1)),
            ManyRecords => folder.sheet.resize(RECORD * (Sheet::MOST_RECORDS + 1), 0),
            ShorterSheet => folder.sheet.truncate(RECORD * rng.between(1, usize::from(index) - 1)),
            OtherSheet => folder.sheet = hall.sheet(rng),
            OtherMarks => put_mark(&mut folder.marks, rng.below(places), rng.pick(&[OPEN, STRUCK])),
            OtherTable => some_entry(rng, &mut folder.table, &[0, 1, 100, 1_000_000, 2_000_000]),
        }
    }
}

/// A state of any bytes for these folders: of each desk nothing, any numbers, a line that might wait, no line left for
/// its lines, or an index above the record count.
pub fn damaged_state(rng: &mut Rng, folders: &[Folder]) -> Vec<u8> {
    let any = |rng: &mut Rng| rng.word() as u16;
    let last = any(rng);
    let mut numbers = vec![rng.pick(&[0, 1, 5, 7, 8, 9, 16, 255, 256, 65_535, last])];
    for folder in folders {
        let count = folder.records() as u16;
        let index = rng.between(1, usize::from(count.max(1))) as u16;
        let (owner, lines) = (rng.below(usize::from(count) + 2) as u16, rng.below(usize::from(index)) as u16);
        numbers.extend(match rng.below(6) {
            0 => [0, any(rng), any(rng)],
            1 => [any(rng), any(rng), any(rng)],
            2 => [index, owner, index.saturating_add(rng.pick(&[0, 1, 300]))],
            3 => [count.saturating_add(rng.pick(&[1, 2, 256])), owner, lines],
            _ => [rng.pick(&[1, index]), owner, 0],
        });
    }
    numbers.iter().flat_map(|number: &u16| number.to_le_bytes()).collect()
}

/// The state's three numbers of a desk: its next index, the record that has it, and its lines.
pub fn desk_numbers(state: &[u8], desk: usize) -> [u16; 3] {
    [0, 1, 2].map(|at| u16::from_le_bytes(state[6 * desk - 4 + 2 * at..][..2].try_into().unwrap()))
}

/// A state without a desk's three numbers, and without the last desk served: what a call may change is put aside.
pub fn without(state: &[u8], desk: usize, last: bool) -> Vec<u8> {
    let mut rest = state.to_vec();
    rest[6 * desk - 4..6 * desk + 2].fill(0);
    if last {
        rest[..2].fill(0);
    }
    rest
}

/// Whether a desk has a line left, by the state's bytes.
pub fn line_left(state: &[u8], desk: usize) -> bool {
    let [index, _, lines] = desk_numbers(state, desk);
    lines < index
}

/// The desks' numbers, from 1.
pub fn desks() -> std::ops::RangeInclusive<usize> {
    1..=Desks::COUNT
}

/// Numbers that are no desk: beside 1 to 8, and those that are one by their lowest byte or two.
pub const NO_DESKS: [u32; 6] = [0, 9, 257, 264, 65_537, u32::MAX];

/// Sizes that are too short for a state.
pub fn short_size(rng: &mut Rng) -> usize {
    let any = rng.below(DESKS_BYTES);
    rng.pick(&[0, 1, DESKS_BYTES - 1, DESKS_BYTES - 1, any])
}
