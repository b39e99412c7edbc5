//! Two programs on the same inputs; everything that they show is compared.

mod between;
mod halls;
mod limits;
mod looks;
mod moves;
mod packing;
mod pages;
mod readings;
mod reasons;
mod savings;
mod segments;
mod slips;
mod steps;
mod texts;
mod turns;

use std::fmt::{self, Debug, Write};
use std::path::PathBuf;

use crate::intervals::Intervals;
use crate::kit::damage::spoil;
use crate::kit::generate::boards::{self, Board};
use crate::kit::generate::drafts::{sheet_bytes, Draft};
use crate::kit::generate::rng::Rng;
use crate::kit::generate::sets::old_bytes;
use crate::kit::generate::sheets::{self, Plan};
use crate::kit::met::coverage::{Coverage, Event, Operation};
use crate::kit::oracle::completions::Completions;
use crate::kit::programs::checker::Checker;
use steps::Run;

/// A difference or a lost edge, with what is needed to see it again.
#[derive(Debug)]
pub struct Difference(pub String);

pub type Checked = Result<(), Difference>;

pub struct Comparison<'a> {
    one: &'a dyn Checker,
    other: &'a dyn Checker,
    /// A third program, for savings, slips, texts, pages, new orders, desks, reasons and packed sets, which it reads
    /// into byte sets.
    naive: &'a dyn Checker,
    seed: u64,
    case: u64,
    /// Sheets compared so far.
    pub sheets: u64,
    /// A folder where each input of the program is kept.
    pub save: Option<PathBuf>,
    saved: u64,
    /// The slip of the sheet before.
    last_slip: Option<u64>,
    /// Whether operations over two tables are compared, too.
    pub two_tables: bool,
    /// Whether halls of eight desks are, which the second program's queues are held against.
    pub eight_desks: bool,
    /// Whether lines are told, which are held against the sentences due.
    pub told_lines: bool,
    completions: Completions,
    pub coverage: Coverage,
}

/// Program texts compared in a hundred, where each starts a process.
const PROGRAMS: usize = 25;

/// Damaged sheets made from one valid sheet.
const DAMAGED: usize = 6;

/// Lines for edges that are kept, made in a round.
const ATTEMPTS: usize = 2;

impl<'a> Comparison<'a> {
    pub fn new(one: &'a dyn Checker, other: &'a dyn Checker, naive: &'a dyn Checker, seed: u64) -> Self {
        Comparison {
            one,
            other,
            naive,
            seed,
            case: 0,
            sheets: 0,
            save: None,
            saved: 0,
            last_slip: None,
            two_tables: true,
            eight_desks: true,
            told_lines: true,
            completions: Completions::default(),
            coverage: Coverage::default(),
        }
    }

    /// Runs cases from 0 on until so many sheets are compared.
    pub fn run(&mut self, sheets: u64) -> Checked {
        let mut case = 0;
        while self.sheets < sheets {
            self.run_case(case)?;
            case += 1;
        }
        Ok(())
    }

    /// One instance with its sheets, listings, tours, files and savings; one whose lengths are known within limits;
    /// slips; texts; the pages of a board; new orders of segments; halls of eight desks; and lines told.
    pub fn run_case(&mut self, case: u64) -> Checked {
        self.case = case;
        let mut rng = Rng::new(self.seed, case);
        let board = boards::board(&mut rng);
        self.measuring(&mut rng, &board)?;
        let n = spoil::point_count(&mut rng);
        self.fresh(&mut rng, n)?;
        self.readings(&mut rng)?;
        let mut run = Run::new(board, &mut rng);
        for _ in 0..2 {
            self.round(&mut rng, &mut run)?;
        }
        self.savings(&mut rng, &run.board)?;
        self.moves(&mut rng, &run.board)?;
        if self.two_tables {
            self.readings_between(&mut rng)?;
            self.limits(&mut rng)?;
        }
        self.segments()?;
        self.slips()?;
        self.texts(case)?;
        self.pages()?;
        if self.eight_desks {
            self.halls()?;
        }
        if self.told_lines {
            self.reasons()?;
        }
        Ok(())
    }

    /// Damaged sheets on copies of the marks; noise, lines for edges that are kept and the valid sheet on the marks
    /// themselves.
    fn round(&mut self, rng: &mut Rng, run: &mut Run) -> Checked {
        let plan = Plan::random(rng, run.board.n);
        let draft = sheets::valid(rng, &Intervals::exact(run.board.n, &run.board.table), &run.marks.set, plan);
        for _ in 0..DAMAGED {
            let sheet = damaged_or_noise(rng, &draft);
            let mut marks = run.marks.clone();
            self.sheet(rng, run, &mut marks, &sheet)?;
            if rng.chance(10) {
                run.marks = marks;
            }
        }
        let mut marks = run.marks.clone();
        let noise = sheets::noise(rng, draft.n);
        self.sheet(rng, run, &mut marks, &noise)?;
        for _ in 0..ATTEMPTS {
            if let Some(sheet) = run.kept.as_ref().and_then(|kept| kept.attempt(rng)) {
                self.sheet(rng, run, &mut marks, &sheet)?;
            }
        }
        if !draft.records.is_empty() {
            self.sheet(rng, run, &mut marks, &sheet_bytes(&draft.records))?;
        }
        run.marks = marks;
        self.listing(rng, run, &run.marks.set)?;
        self.listing(rng, run, &run.marks.set)?;
        self.tour(rng, run, &run.marks.set)
    }

    /// *Measure*: the answer and every place of the table, also on refusals.
    fn measuring(&mut self, rng: &mut Rng, board: &Board) -> Checked {
        let mut call = spoil::Measuring::new(rng, board);
        self.measure(&call)?;
        spoil::measuring(rng, &mut call);
        self.measure(&call)
    }

    fn measure(&mut self, call: &spoil::Measuring) -> Checked {
        let (mut table, mut other_table) = (call.table.clone(), call.table.clone());
        let answer = self.one.measure(call.n, call.rule, &call.coordinates, &mut table);
        let other = self.other.measure(call.n, call.rule, &call.coordinates, &mut other_table);
        self.coverage.number(Operation::Measure, answer);
        self.coverage.measure_rules.count(answer, call.rule, &call.coordinates);
        self.same("measure", (answer, table), (other, other_table), || format!("{call:?}\n"))
    }

    /// *Fresh marks*, for wrong sizes too.
    fn fresh(&mut self, rng: &mut Rng, n: u32) -> Checked {
        let size = spoil::mark_size(rng, n);
        let mut marks = old_bytes(rng, size);
        let (before, mut other_marks) = (marks.clone(), marks.clone());
        let answer = self.one.fresh_marks(n, &mut marks);
        let other = self.other.fresh_marks(n, &mut other_marks);
        self.coverage.number(Operation::FreshMarks, answer);
        self.coverage.sets.count(Operation::FreshMarks, n, &before, answer);
        self.same("fresh marks", (answer, marks), (other, other_marks), || format!("n {n} marks {}\n", hex(&before)))
    }

    /// What `mark` prints for a file with this sheet.
    fn program(&mut self, rng: &mut Rng, board: &Board, sheet: &[u8]) -> Checked {
        let Some(measured) = &board.measured else { return Ok(()) };
        let mut file: Vec<u8> = [measured.rule, u32::from(board.n)].iter().flat_map(|v| v.to_le_bytes()).collect();
        file.extend(measured.coordinates.iter().flat_map(|v| v.to_le_bytes()));
        file.extend(sheet);
        if rng.chance(15) {
            spoil::file(rng, board.n, &mut file);
        }
        self.keep(&file);
        let text = self.one.program(&file);
        let other = self.other.program(&file);
        self.count_program(&file, &text);
        let (text, other) = (String::from_utf8_lossy(&text), String::from_utf8_lossy(&other));
        self.same("program", text, other, || format!("file {}\n", hex(&file)))
    }

    /// Writes an input of the program to the folder, if there is one.
    fn keep(&mut self, file: &[u8]) {
        let Some(folder) = &self.save else { return };
        self.saved += 1;
        let path = folder.join(format!("{:06}.sheet", self.saved));
        std::fs::write(&path, file).unwrap_or_else(|error| panic!("{}: {error}", path.display()));
    }

    fn count_program(&mut self, file: &[u8], text: &[u8]) {
        let text = String::from_utf8_lossy(text);
        let verdict = text.lines().last().and_then(|line| line.split(' ').nth(1)).and_then(|v| v.parse().ok());
        let number = verdict.unwrap_or(0);
        self.coverage.number(Operation::Program, number);
        let alone = text.lines().count() == 1;
        if number == 7 {
            self.coverage.event(if alone { Event::FileRefused } else { Event::RecordsRefused }, 1);
        }
        let number = if alone { number } else { 0 };
        self.count_rule(file, number);
        if number == 0 {
            self.coverage.sets.count(Operation::Program, entry(file, 4), &[], 0);
        }
    }

    /// The rule of a file that is long enough to be measured, with what came of that.
    fn count_rule(&mut self, file: &[u8], number: u64) {
        if number == 0 || number == 3 {
            let (rule, n) = (entry(file, 0), entry(file, 4));
            self.coverage.program_rules.count(number, rule, &file[8..8 + 8 * n as usize]);
        }
    }

    fn same<T: PartialEq + Debug>(&self, what: &str, one: T, other: T, inputs: impl Fn() -> String) -> Checked {
        self.same_as(what, one, (self.other.name(), other), inputs)
    }

    /// The first program's answer against that of a named one.
    fn same_as<T: PartialEq + Debug>(
        &self,
        what: &str,
        one: T,
        (name, other): (&str, T),
        inputs: impl Fn() -> String,
    ) -> Checked {
        if one == other {
            return Ok(());
        }
        let answers = format!("{}: {one:?}\n{name}: {other:?}\n", self.one.name());
        Err(self.difference(what, inputs() + &answers))
    }

    fn difference(&self, what: &str, text: String) -> Difference {
        Difference(format!("{what} differs: --seed {} --case {}\n{text}", self.seed, self.case))
    }
}

fn damaged_or_noise(rng: &mut Rng, draft: &Draft) -> Vec<u8> {
    if draft.records.is_empty() {
        sheets::noise(rng, draft.n)
    } else {
        sheets::damaged(rng, draft)
    }
}

/// The 32-bit number at this byte.
fn entry(bytes: &[u8], at: usize) -> u32 {
    u32::from_le_bytes(bytes[at..at + 4].try_into().unwrap())
}

pub fn hex(bytes: &[u8]) -> String {
    bytes.iter().fold(String::new(), |mut text, byte| {
        write!(text, "{byte:02x}").unwrap();
        text
    })
}

/// Bytes, printed in hex.
#[derive(Clone, Copy, PartialEq)]
struct Hex<'a>(&'a [u8]);

impl Debug for Hex<'_> {
    fn fmt(&self, f: &mut fmt::Formatter) -> fmt::Result {
        write!(f, "{}", hex(self.0))
    }
}

fn hex_call(n: u32, table: &[u8], marks: &[u8]) -> String {
    format!("n {n}\ntable {}\nmarks {}\n", hex(table), hex(marks))
}
