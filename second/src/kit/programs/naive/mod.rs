//! A slow checker written straight from documents 01 and 02, sharing no code with the second program: all edges in a
//! list, marks as a byte set that is packed again at the end, K as a vector, degrees by counting, cycles by walking
//! every way, all pairs filtered by the five tests as they stand.
//!
//! A `Mistake` builds in one mistake, to show that the comparison finds it.

mod desks;
pub mod language;
mod limits;
mod mistake;
mod pages;
mod reader;
mod reasons;
mod rules;
mod savings;
mod segments;
mod sets;
pub mod texts;
mod views;

use crate::kit::programs::checker::Checker;
pub use mistake::Mistake;
use reader::Reader;
use rules::{all_edges, pending_read_as, Board, Edge};
use sets::{byte_set, packed_size};
use views::Viewer;

#[derive(Default)]
pub struct Naive {
    pub mistake: Option<Mistake>,
}

fn little_endian(bytes: &[u8]) -> u64 {
    bytes.iter().rev().fold(0, |number, &byte| number * 256 + u64::from(byte))
}

fn numbers(bytes: &[u8], width: usize) -> Vec<u64> {
    bytes.chunks(width).map(little_endian).collect()
}

/// A limit, or one less by a mistake.
fn limit(number: u64, mistake: Option<Mistake>, wrong: Mistake) -> u64 {
    number - u64::from(mistake == Some(wrong))
}

/// The number of edges, or 1.
fn edge_count(n: u32) -> Result<usize, u64> {
    if n < 4 || n > 180 {
        return Err(1);
    }
    Ok(n as usize * (n as usize - 1) / 2)
}

/// Tests 1, 2, 5; the number of edges if all pass.
fn table_tests(mistake: Option<Mistake>, n: u32, table: &[u32], table_whole: bool) -> Result<usize, u64> {
    let edges = edge_count(n)?;
    if !table_whole || table.len() != edges {
        Err(2)
    } else if table.iter().any(|&l| u64::from(l) > limit(2_000_000, mistake, Mistake::LengthLimit)) {
        Err(5)
    } else {
        Ok(edges)
    }
}

/// Tests 1, 2, 5, 6; the byte set if all pass.
fn first_tests(
    mistake: Option<Mistake>,
    n: u32,
    table: &[u32],
    table_whole: bool,
    marks: &[u8],
) -> Result<Vec<u8>, u64> {
    let edges = table_tests(mistake, n, table, table_whole)?;
    byte_set(mistake, edges, marks)
}

/// The refusal number, or the answer.
fn number(answer: Result<u64, u64>) -> u64 {
    answer.unwrap_or_else(|refusal| refusal)
}

/// The same for a saving.
fn saved(answer: Result<i64, u64>) -> i64 {
    answer.unwrap_or_else(|refusal| refusal as i64)
}

fn table_of(bytes: &[u8]) -> (Vec<u32>, bool) {
    (numbers(bytes, 4).iter().map(|&l| l as u32).collect(), bytes.len() % 4 == 0)
}

/// The records of a sheet.
fn records(sheet: &[u8]) -> Vec<Vec<usize>> {
    sheet.chunks(16).map(|bytes| numbers(bytes, 2).iter().map(|&v| v as usize).collect()).collect()
}

/// The least d that passes a growing test, d at most 2,000,000.
fn least(test: impl Fn(u64) -> bool) -> u64 {
    let (mut low, mut high) = (0, 2_000_000);
    while low < high {
        let middle = (low + high) / 2;
        if test(middle) {
            high = middle;
        } else {
            low = middle + 1;
        }
    }
    low
}

/// The length from S by the inequalities of EUC_2D, CEIL_2D and ATT; rule is 1, 2 or 3.
pub fn from_squares(mistake: Option<Mistake>, rule: u32, s: u64) -> u64 {
    let ten = if mistake == Some(Mistake::AttNine) { 9 } else { 10 };
    match rule {
        1 => least(|d| 4 * s < (2 * d + 1) * (2 * d + 1)),
        2 => least(|d| d * d >= s),
        _ if mistake == Some(Mistake::AttNearest) => least(|d| 4 * s < 10 * (2 * d + 1) * (2 * d + 1)),
        _ => least(|d| ten * d * d >= s),
    }
}

/// The length by a rule, 1 to 5, from the two differences.
pub fn distance(mistake: Option<Mistake>, rule: u32, dx: i64, dy: i64) -> u64 {
    let (x, y) = (dx.abs() as u64, dy.abs() as u64);
    match rule {
        1..=3 => from_squares(mistake, rule, (dx * dx + dy * dy) as u64),
        4 if mistake != Some(Mistake::ManIsMax) => x + y,
        _ if mistake == Some(Mistake::MaxIsFirst) => x,
        _ => least(|d| d >= x && d >= y),
    }
}

impl Naive {
    fn makes(&self, mistake: Mistake) -> bool {
        self.mistake == Some(mistake)
    }

    /// Tests 20 and 7 of a sheet.
    fn sheet_tests(&self, marks: &[u8], sheet: &[u8], asked: bool) -> Result<(), u64> {
        let pending = marks.contains(&2) && (asked || !self.makes(Mistake::PendingMarked));
        let most = limit(4_000, self.mistake, Mistake::RecordLimit);
        let records = !sheet.is_empty() && sheet.len() % 16 == 0 && sheet.len() as u64 / 16 <= most;
        if pending && (records || !self.makes(Mistake::PendingAfterRecords)) {
            Err(20)
        } else if !records {
            Err(7)
        } else {
            Ok(())
        }
    }

    /// *Mark a sheet*, directly or asked.
    fn mark_or_ask(&self, n: u32, table: &[u8], set: &mut [u8], sheet: &[u8], asked: bool) -> Result<u64, u64> {
        let (table, whole) = table_of(table);
        let marks = first_tests(self.mistake, n, &table, whole, set)?;
        self.mark_or_ask_on(Board::new(n as usize, &table, self.mistake), marks, set, sheet, asked)
    }

    /// The same on a board, past the tests of the table and of the marks.
    fn mark_or_ask_on(
        &self,
        board: Board,
        mut marks: Vec<u8>,
        set: &mut [u8],
        sheet: &[u8],
        asked: bool,
    ) -> Result<u64, u64> {
        self.sheet_tests(&marks, sheet, asked)?;
        let answer = self.mark_or_ask_bytes(board, &mut marks, sheet, asked);
        sets::write(self.mistake, &marks, set);
        Ok(answer)
    }

    /// The same on a byte set, past the first tests.
    fn mark_or_ask_bytes(&self, board: Board, marks: &mut [u8], sheet: &[u8], asked: bool) -> u64 {
        let before = marks.to_vec();
        let mut accepted = 0;
        let strike = if asked { 2 } else { 0 };
        let stop = Reader { board, records: records(sheet), entered: vec![], strike }.lines(marks, &mut accepted);
        if stop.is_err() && (self.makes(Mistake::StrikesGivenBack) || asked && self.makes(Mistake::StoppedAskGivenBack))
        {
            marks.copy_from_slice(&before);
        }
        if stop.is_err() && asked && self.makes(Mistake::StoppedAskStrikes) {
            marks.copy_from_slice(&pending_read_as(0, marks));
        }
        let (number, record) = stop.err().unwrap_or((0, 0));
        number + (record as u64) * 256 + accepted * 256 * 65_536
    }

    /// *Confirm* and *withdraw*: 1, 6, 21; then `becomes` stands for each 2.
    fn settle(&self, n: u32, set: &mut [u8], becomes: u8) -> Result<u64, u64> {
        let marks = byte_set(self.mistake, edge_count(n)?, set)?;
        if !marks.contains(&2) && !self.makes(Mistake::NothingPendingUntold) {
            return Err(21);
        }
        sets::write(self.mistake, &pending_read_as(becomes, &marks), set);
        Ok(0)
    }

    fn fresh(&self, n: u32, set: &mut [u8]) -> Result<u64, u64> {
        let edges = edge_count(n)?;
        if set.len() != packed_size(edges) {
            return Err(6);
        }
        sets::write(self.mistake, &vec![1; edges], set);
        if self.makes(Mistake::FreshUnused) {
            set.fill(85);
        }
        Ok(0)
    }

    /// 1; 6, the byte set; 6, the size of the packed set.
    fn pack(&self, n: u32, bytes: &[u8], set: &mut [u8]) -> Result<u64, u64> {
        let edges = edge_count(n)?;
        let known = |&mark: &u8| mark < 3 || self.makes(Mistake::ByteModuloFour) && mark % 4 < 3;
        let good = bytes.len() == edges && bytes.iter().all(known);
        if self.makes(Mistake::PackedBeforeTest) && bytes.len() == edges && set.len() == packed_size(edges) {
            sets::write(None, &bytes.iter().map(|mark| mark % 4).collect::<Vec<u8>>(), set);
        }
        if !good || set.len() != packed_size(edges) {
            return Err(6);
        }
        if self.makes(Mistake::WrittenSetTested) {
            byte_set(None, edges, set)?;
        }
        let pending = if self.makes(Mistake::PendingPackedOpen) { 1 } else { 2 };
        let bytes: Vec<u8> = bytes.iter().map(|mark| mark % 4).collect();
        sets::write(self.mistake, &pending_read_as(pending, &bytes), set);
        Ok(0)
    }

    /// 1; 6, the packed set; 6, the size of the byte set.
    fn unpack(&self, n: u32, set: &[u8], bytes: &mut [u8]) -> Result<u64, u64> {
        let edges = edge_count(n)?;
        let marks = byte_set(self.mistake, edges, set)?;
        if bytes.len() != edges {
            return Err(6);
        }
        let last = if self.makes(Mistake::LastMarkDropped) { edges - 1 } else { edges };
        bytes[..last].copy_from_slice(&marks[..last]);
        Ok(0)
    }

    fn tour(&self, n: u32, table: &[u8], set: &[u8], tour: &[u8]) -> Result<u64, u64> {
        let (table, whole) = table_of(table);
        let marks = first_tests(self.mistake, n, &table, whole, set)?;
        let points: Vec<usize> = numbers(tour, 2).iter().map(|&v| v as usize).collect();
        let mut sorted = points.clone();
        sorted.sort();
        if tour.len() % 2 != 0 || sorted != (1..=n as usize).collect::<Vec<_>>() {
            return Err(17);
        }
        let board = Board::new(n as usize, &table, self.mistake);
        let closing = if self.makes(Mistake::OpenTour) { 1 } else { 0 };
        let edges: Vec<Edge> =
            (closing..points.len()).map(|i| (points[i], points[(i + points.len() - 1) % points.len()])).collect();
        let length: i64 = edges.iter().map(|&(a, b)| board.out(a, b)).sum();
        let marks = pending_read_as(if self.makes(Mistake::PendingStruckInTour) { 0 } else { 1 }, &marks);
        let open = edges.iter().filter(|&&(a, b)| marks[board.place(a, b)] == 0).count() == 0;
        Ok(length as u64 * 65_536 + if open { 256 } else { 0 })
    }

    fn list(&self, n: u32, table: &[u8], set: &[u8], abc: [u16; 3], list: &mut [u8]) -> Result<u64, u64> {
        let (table, whole) = table_of(table);
        let marks = first_tests(self.mistake, n, &table, whole, set)?;
        self.list_on(Board::new(n as usize, &table, self.mistake), &marks, abc, list)
    }

    /// The same on a board, past the tests of the table and of the marks.
    fn list_on(&self, board: Board, marks: &[u8], abc: [u16; 3], list: &mut [u8]) -> Result<u64, u64> {
        let [a, b, c] = abc.map(usize::from);
        if [a, b, c].iter().any(|&v| v == 0 || v > board.n) || a == b {
            return Err(11);
        }
        let marks = pending_read_as(if self.makes(Mistake::PendingStruckInList) { 0 } else { 1 }, marks);
        if marks[board.place(a, b)] == 0 {
            return Err(12);
        }
        let pairs = board.standing(&marks, &[(a, b)], c);
        let fits = list.len() >= 4 * pairs.len();
        if fits || self.makes(Mistake::ListWrittenOnRefusal) {
            for (i, &(x, y)) in pairs.iter().take(list.len() / 4).enumerate() {
                for (j, point) in [x, y].into_iter().enumerate() {
                    list[4 * i + 2 * j] = (point % 256) as u8;
                    list[4 * i + 2 * j + 1] = (point / 256) as u8;
                }
            }
        }
        if fits {
            Ok(65_536 * pairs.len() as u64)
        } else {
            Err(18)
        }
    }
}

impl Checker for Naive {
    fn name(&self) -> &'static str {
        "naive"
    }

    fn measure(&self, n: u32, rule: u32, coordinates: &[u8], table: &mut [u8]) -> u64 {
        let (places, (coordinates, whole)) = (table, table_of(coordinates));
        if n < 4 || n > 180 {
            return 1;
        }
        let edges = all_edges(n as usize);
        if !whole || coordinates.len() as u64 != 2 * u64::from(n) || places.len() != 4 * edges.len() {
            return 2;
        }
        let rules = if self.makes(Mistake::RuleSix) { 6 } else { 5 };
        if rule == 0 || rule > rules {
            return 3;
        }
        if coordinates.iter().any(|&v| u64::from(v) > limit(1_000_000, self.mistake, Mistake::CoordinateLimit)) {
            return 4;
        }
        for (place, (a, b)) in edges.into_iter().enumerate() {
            let dx = i64::from(coordinates[2 * a - 2]) - i64::from(coordinates[2 * b - 2]);
            let dy = i64::from(coordinates[2 * a - 1]) - i64::from(coordinates[2 * b - 1]);
            let length = distance(self.mistake, rule, dx, dy);
            for byte in 0..4 {
                places[4 * place + byte] = (length >> (8 * byte)) as u8;
            }
        }
        0
    }

    fn fresh_marks(&self, n: u32, marks: &mut [u8]) -> u64 {
        number(self.fresh(n, marks))
    }

    fn pack_marks(&self, n: u32, bytes: &[u8], packed: &mut [u8]) -> u64 {
        number(self.pack(n, bytes, packed))
    }

    fn unpack_marks(&self, n: u32, packed: &[u8], bytes: &mut [u8]) -> u64 {
        number(self.unpack(n, packed, bytes))
    }

    fn mark_sheet(&self, n: u32, table: &[u8], marks: &mut [u8], sheet: &[u8]) -> u64 {
        number(self.mark_or_ask(n, table, marks, sheet, false))
    }

    fn ask_sheet(&self, n: u32, table: &[u8], marks: &mut [u8], sheet: &[u8]) -> u64 {
        number(self.mark_or_ask(n, table, marks, sheet, true))
    }

    fn confirm(&self, n: u32, marks: &mut [u8]) -> u64 {
        number(self.settle(n, marks, if self.makes(Mistake::ConfirmOpens) { 1 } else { 0 }))
    }

    fn withdraw(&self, n: u32, marks: &mut [u8]) -> u64 {
        number(self.settle(n, marks, if self.makes(Mistake::WithdrawStrikes) { 0 } else { 1 }))
    }

    fn check_tour(&self, n: u32, table: &[u8], marks: &[u8], tour: &[u8]) -> u64 {
        number(self.tour(n, table, marks, tour))
    }

    fn list_pairs(&self, n: u32, table: &[u8], marks: &[u8], abc: [u16; 3], list: &mut [u8]) -> u64 {
        number(self.list(n, table, marks, abc, list))
    }

    fn mark_between(&self, n: u32, low: &[u8], high: &[u8], marks: &mut [u8], sheet: &[u8]) -> u64 {
        number(self.mark_within(n, low, high, marks, sheet))
    }

    fn list_between(&self, n: u32, low: &[u8], high: &[u8], marks: &[u8], abc: [u16; 3], list: &mut [u8]) -> u64 {
        number(self.list_within(n, low, high, marks, abc, list))
    }

    fn exchange_saving(&self, n: u32, table: &[u8], pqxy: [u16; 4]) -> i64 {
        saved(self.exchange(n, table, pqxy))
    }

    fn move_saving(&self, n: u32, table: &[u8], cxyuv: [u16; 5]) -> i64 {
        saved(self.moved(n, table, cxyuv))
    }

    fn crossing_saving(&self, n: u32, table: &[u8], pqrsxyzw: [u16; 8]) -> i64 {
        saved(self.crossed(n, table, pqrsxyzw))
    }

    fn release(&self, slip: u64) -> u64 {
        self.released(slip)
    }

    fn examiner_view(&self, slip: u64, bytes: &mut [u8]) -> u64 {
        self.view(Viewer::Examiner, slip, bytes)
    }

    fn candidate_view(&self, slip: u64, bytes: &mut [u8]) -> u64 {
        self.view(Viewer::Candidate, slip, bytes)
    }

    fn read_tsplib(&self, text: &[u8], table: &mut [u8]) -> u64 {
        number(self.read(text, table).map(|n| 65_536 * n))
    }

    fn tsplib_points(&self, text: &[u8]) -> u64 {
        number(self.points(text).map(|n| 65_536 * n))
    }

    fn write_page(&self, n: u32, table: &[u8], marks: &[u8], page: u32, text: &mut [u8]) -> u64 {
        number(self.page_written(n, table, marks, page, text))
    }

    fn read_page(&self, n: u32, page: u32, text: &[u8], table: &mut [u8], marks: &mut [u8]) -> u64 {
        number(self.page_read(n, page, text, table, marks))
    }

    fn open_desks(&self, desks: &mut [u8]) -> u64 {
        number(self.opened(desks))
    }

    fn hand_in(&self, desks: &mut [u8], desk: u32, n: u32, table: &[u8], marks: &[u8], sheet: &[u8]) -> u64 {
        number(self.handed_in(desks, desk, n, table, marks, sheet))
    }

    fn next_desk(&self, desks: &[u8]) -> u64 {
        number(self.asked_next(desks))
    }

    fn turn(&self, desks: &mut [u8], n: u32, table: &[u8], marks: &mut [u8], sheet: &[u8]) -> u64 {
        number(self.turned(desks, n, table, marks, sheet))
    }

    fn tell_line(&self, n: u32, table: &[u8], marks: &[u8], sheet: &[u8], record: u32, text: &mut [u8]) -> u64 {
        number(self.reasons_told(n, table, marks, sheet, record, text))
    }

    fn program(&self, file: &[u8]) -> Vec<u8> {
        let refused = |number: u64| format!("verdict {number} record 0 open 0\n").into_bytes();
        if file.len() < 8 {
            return refused(7);
        }
        let (rule, n) = (little_endian(&file[..4]) as u32, little_endian(&file[4..8]) as u32);
        if n < 4 || n > 180 {
            return refused(1);
        }
        let sheet_start = 8 + 8 * n as usize;
        if file.len() < sheet_start || file.len() as u64 > limit(65_448, self.mistake, Mistake::FileLimit) {
            return refused(7);
        }
        let edges = all_edges(n as usize);
        let mut table = vec![0; 4 * edges.len()];
        let refusal = self.measure(n, rule, &file[8..sheet_start], &mut table);
        if refusal != 0 {
            return refused(refusal);
        }
        let mut marks = vec![1; edges.len()];
        let sheet = &file[sheet_start..];
        let table = table_of(&table).0;
        let answer = match self.sheet_tests(&marks, sheet, false) {
            Ok(()) => self.mark_or_ask_bytes(Board::new(n as usize, &table, self.mistake), &mut marks, sheet, false),
            Err(refusal) => refusal,
        };
        let mut text = format!("points {} edges {}\n", n, edges.len());
        for (place, (a, b)) in edges.iter().enumerate() {
            if marks[place] == 0 {
                text.push_str(&format!("struck {a} {b}\n"));
            }
        }
        let open: usize = marks.iter().map(|&m| usize::from(m)).sum();
        text.push_str(&format!("verdict {} record {} open {}\n", answer % 256, answer / 256 % 65_536, open));
        text.into_bytes()
    }
}
