//! How often each outcome was met.

use std::fmt;

use crate::kit::met::desks::DesksMet;
use crate::kit::met::limits::LimitsMet;
use crate::kit::met::moves::MovesMet;
use crate::kit::met::pages::PagesMet;
use crate::kit::met::reasons::ReasonsMet;
use crate::kit::met::rules::RulesMet;
use crate::kit::met::savings::SavingsMet;
use crate::kit::met::segments::SegmentsMet;
use crate::kit::met::sets::SetsMet;
use crate::kit::met::slips::SlipsMet;
use crate::kit::met::texts::TextsMet;
use crate::sheet::Sheet;

#[derive(Clone, Copy, Debug, PartialEq, Eq)]
pub enum Operation {
    Measure,
    FreshMarks,
    PackMarks,
    UnpackMarks,
    MarkSheet,
    AskSheet,
    Confirm,
    Withdraw,
    ListPairs,
    CheckTour,
    ExchangeSaving,
    MoveSaving,
    CrossingSaving,
    ExaminerView,
    CandidateView,
    MarkBetween,
    ListBetween,
    ReadTsplib,
    TsplibPoints,
    WritePage,
    ReadPage,
    OpenDesks,
    HandIn,
    NextDesk,
    Turn,
    TellLine,
    Program,
}

use Operation::*;

/// Each operation with the numbers that it has to have met; 0 is a result.
const DEMANDS: [(Operation, &str, &[usize]); Operation::COUNT] = [
    (Measure, "measure", &[0, 1, 2, 3, 4]),
    (FreshMarks, "fresh marks", &[0, 1, 6]),
    (PackMarks, "pack marks", &[0, 1, 6]),
    (UnpackMarks, "unpack marks", &[0, 1, 6]),
    (MarkSheet, "mark a sheet", &[0, 1, 2, 5, 6, 20, 7, 8, 9, 10, 11, 12, 13, 14, 15, 16, 23, 24]),
    (AskSheet, "ask a sheet", &[0, 1, 2, 5, 6, 20, 7, 8, 9, 10, 11, 12, 13, 14, 15, 16, 23, 24]),
    (Confirm, "confirm", &[0, 1, 6, 21]),
    (Withdraw, "withdraw", &[0, 1, 6, 21]),
    (ListPairs, "list pairs", &[0, 1, 2, 5, 6, 11, 12, 18]),
    (CheckTour, "check a tour", &[0, 1, 2, 5, 6, 17]),
    (ExchangeSaving, "exchange saving", &[0, 1, 2, 5, 11]),
    (MoveSaving, "move saving", &[0, 1, 2, 5, 11]),
    (CrossingSaving, "crossing saving", &[0, 1, 2, 5, 11]),
    (ExaminerView, "examiner view", &[0, 22]),
    (CandidateView, "candidate view", &[0, 22]),
    (MarkBetween, "mark between", &[0, 1, 2, 5, 25, 6, 20, 7, 8, 9, 10, 11, 12, 13, 14, 15, 16, 23, 24]),
    (ListBetween, "list between", &[0, 1, 2, 5, 25, 6, 11, 12, 18]),
    (ReadTsplib, "read a text", &[0, 1, 2, 4, 5, 19]),
    (TsplibPoints, "points of a text", &[0, 19]),
    (WritePage, "write a page", &[0, 1, 2, 5, 6, 26, 22]),
    (ReadPage, "read a page", &[0, 1, 2, 6, 26, 27]),
    (OpenDesks, "open desks", &[0, 22]),
    (HandIn, "hand in", &[0, 22, 28, 29, 1, 2, 5, 6, 20, 7]),
    (NextDesk, "next desk", &[0, 22]),
    (Turn, "turn", &[0, 22, 1, 2, 5, 6, 20, 7, 8, 9, 10, 11, 12, 13, 14, 15, 16, 23, 24]),
    (TellLine, "tell a line", &[0, 1, 2, 5, 6, 7, 8, 9, 10, 11, 12, 13, 14, 15, 16, 22, 23, 24]),
    (Program, "program", &[0, 1, 3, 4, 7, 8, 9, 10, 11, 12, 13, 14, 15, 16, 23, 24]),
];

impl Operation {
    pub const COUNT: usize = 27;

    pub fn name(self) -> &'static str {
        DEMANDS.iter().find(|demand| demand.0 == self).unwrap().1
    }
}

const NUMBERS: usize = 30;

/// Outcomes that a refusal number does not tell apart.
#[derive(Clone, Copy, Debug, PartialEq, Eq)]
pub enum Event {
    TourOpen,
    TourStruck,
    NoPairs,
    SomePairs,
    /// A list with places past the pairs.
    PlacesPast,
    /// A sheet refused after accepted lines.
    StoppedAfterStrikes,
    /// A sheet of several lines, all accepted.
    SeveralLines,
    /// Records that were never entered, in an accepted sheet.
    RecordsSkipped,
    /// Splits of accepted lines at a point with no, one, two edges in K.
    SplitOffK,
    SplitAtEnd,
    SplitInside,
    /// Splits of accepted lines at which no pair stands.
    SplitWithoutPair,
    /// Crossings of accepted lines: an end of a centre is p or q, or none is.
    CrossingShared,
    CrossingApart,
    /// Cases of accepted lines that a new order of a segment closes.
    Reorderings,
    /// K has thirteen edges, the most there are, at a crossing of an accepted line.
    FullSet,
    /// K is a whole tour at a split or crossing of an accepted line.
    FullTour,
    /// 7 for the file: only the last line is printed.
    FileRefused,
    /// 7 for the records: all lines are printed.
    RecordsRefused,
    /// Marks held against all shortest tours.
    BruteForce,
    /// Strikes held against all shortest tours.
    BruteForceStrikes,
    /// Marks with strikes, from fresh marks, whose open edges were counted.
    OpenCounted,
    /// Points and marks with the fewest open edges that Paper 9 allows.
    TwoOpen,
    LeastOpen,
    /// Tours that three exchanges cannot shorten, held against such marks: on boards up to nine points and up to
    /// thirty, and those that are longer than a tour that is known.
    ThreeOptSmall,
    ThreeOptLarge,
    ThreeOptLonger,
    /// 20 for a sheet that 7 is for too.
    PendingFirst,
    /// An asked sheet refused after accepted lines.
    AskStopped,
    /// 12 for an edge that an earlier line of the same asked sheet has made pending.
    AskedTwice,
    /// An asked sheet with strikes: on copies, confirming left the marks of direct marking and withdrawing the old
    /// ones.
    AskSettled,
    /// Lists over pending marks: with other pairs than if these were struck; for a pending edge.
    PendingPairs,
    PendingListed,
    /// A tour whose edges are all open because pending ones count as open.
    PendingTour,
    /// Pending marks held against all shortest tours, and against 3-opt tours of larger boards.
    PendingShortest,
    PendingThreeOpt,
    /// Sets with pending marks, converted there and back.
    PackedBack,
    UnpackedBack,
    /// Byte sets refused for one byte: of 3, above 3, the first, the last.
    ByteThree,
    ByteAboveThree,
    FirstByte,
    LastByte,
    /// Conversions refused for the size of the byte set alone.
    PackShorter,
    PackLonger,
    UnpackShorter,
    UnpackLonger,
    /// Conversions refused by 6 for both sets, and by 1 where 6 is for one, too.
    BothSets,
    PointsFirst,
}

use Event::*;

const EVENTS: [(Event, &str); 48] = [
    (TourOpen, "tours with all edges open"),
    (TourStruck, "tours with a struck edge"),
    (NoPairs, "splits listed without a pair"),
    (SomePairs, "splits listed with pairs"),
    (PlacesPast, "lists with places past the pairs"),
    (StoppedAfterStrikes, "sheets stopped after accepted lines"),
    (SeveralLines, "accepted sheets of several lines"),
    (RecordsSkipped, "accepted sheets with records not entered"),
    (SplitOffK, "accepted splits at a point off K"),
    (SplitAtEnd, "accepted splits at an end of K"),
    (SplitInside, "accepted splits at a point with two edges in K"),
    (SplitWithoutPair, "accepted splits without a pair"),
    (CrossingShared, "accepted crossings with an end that is p or q"),
    (CrossingApart, "accepted crossings with all ends apart"),
    (Reorderings, "accepted new orders"),
    (FullSet, "accepted crossings with thirteen edges in K"),
    (FullTour, "accepted closings with a whole tour as K"),
    (FileRefused, "program: file refused by 7"),
    (RecordsRefused, "program: records refused by 7"),
    (BruteForce, "marks held against all shortest tours"),
    (BruteForceStrikes, "strikes held against all shortest tours"),
    (OpenCounted, "marks with strikes whose open edges were counted"),
    (TwoOpen, "points left with two open edges"),
    (LeastOpen, "marks left with n open edges"),
    (ThreeOptSmall, "3-opt tours up to nine points, held against marks with strikes"),
    (ThreeOptLarge, "3-opt tours of more points, held against marks with strikes"),
    (ThreeOptLonger, "3-opt tours longer than another, held against marks with strikes"),
    (PendingFirst, "sheets refused by 20 before 7"),
    (AskStopped, "asked sheets stopped after accepted lines"),
    (AskedTwice, "asked lines for an edge that their own sheet has made pending"),
    (AskSettled, "asked sheets with strikes, confirmed as marked and withdrawn as before"),
    (PendingPairs, "lists with pairs that stand by pending edges"),
    (PendingListed, "splits listed for a pending edge"),
    (PendingTour, "tours with all edges open, some of them pending"),
    (PendingShortest, "pending marks held against all shortest tours"),
    (PendingThreeOpt, "pending marks held against 3-opt tours of more than nine points"),
    (PackedBack, "byte sets with pending marks, packed and unpacked to the old bytes"),
    (UnpackedBack, "packed sets with pending marks, unpacked and packed to the old ones"),
    (ByteThree, "byte sets refused for a byte of 3"),
    (ByteAboveThree, "byte sets refused for a byte above 3"),
    (FirstByte, "byte sets refused for their first byte"),
    (LastByte, "byte sets refused for their last byte"),
    (PackShorter, "byte sets a byte too short to be packed"),
    (PackLonger, "byte sets a byte too long to be packed"),
    (UnpackShorter, "byte sets a byte too short to be written"),
    (UnpackLonger, "byte sets a byte too long to be written"),
    (BothSets, "conversions refused by 6 for both sets"),
    (PointsFirst, "conversions of faulty sets refused by 1"),
];

#[derive(Clone)]
pub struct Coverage {
    numbers: [[u64; NUMBERS]; DEMANDS.len()],
    events: [u64; EVENTS.len()],
    /// The rules that *measure* and the program were given.
    pub measure_rules: RulesMet,
    pub program_rules: RulesMet,
    pub sets: SetsMet,
    pub savings: SavingsMet,
    pub moves: MovesMet,
    pub slips: SlipsMet,
    pub limits: LimitsMet,
    pub texts: TextsMet,
    pub pages: PagesMet,
    pub desks: DesksMet,
    pub segments: SegmentsMet,
    pub reasons: ReasonsMet,
    /// Accepted lines by the number of splits one inside another, from 1.
    depths: [u64; Sheet::MOST_SPLITS + 1],
    /// Accepted lines by the size of the board.
    sizes: [u64; SIZES.len()],
}

/// Classes of boards by their number of points, up to and with this one.
const SIZES: [u32; 5] = [9, 20, 60, 100, 180];

impl Default for Coverage {
    /// Nothing met.
    fn default() -> Self {
        Coverage {
            numbers: [[0; NUMBERS]; DEMANDS.len()],
            events: [0; EVENTS.len()],
            measure_rules: RulesMet::default(),
            program_rules: RulesMet::default(),
            sets: SetsMet::default(),
            savings: SavingsMet::default(),
            moves: MovesMet::default(),
            slips: SlipsMet::default(),
            limits: LimitsMet::default(),
            texts: TextsMet::default(),
            pages: PagesMet::default(),
            desks: DesksMet::default(),
            segments: SegmentsMet::default(),
            reasons: ReasonsMet::default(),
            depths: [0; Sheet::MOST_SPLITS + 1],
            sizes: [0; SIZES.len()],
        }
    }
}

impl Coverage {
    pub fn number(&mut self, operation: Operation, number: u64) {
        self.numbers[operation as usize][number as usize] += 1;
    }

    pub fn event(&mut self, event: Event, times: u64) {
        self.events[event as usize] += times;
    }

    /// An accepted line on a board of n points.
    pub fn line(&mut self, n: u32, depth: usize) {
        self.depths[depth] += 1;
        self.sizes[SIZES.iter().position(|&most| n <= most).unwrap()] += 1;
    }

    /// Accepted lines with so many splits one inside another.
    pub fn lines_at(&self, depth: usize) -> u64 {
        self.depths[depth]
    }

    pub fn times(&self, event: Event) -> u64 {
        self.events[event as usize]
    }

    /// What was demanded and never met.
    pub fn missing(&self) -> Vec<String> {
        let mut missing = self.missing_numbers(|_| true);
        let unmet = EVENTS.iter().filter(|&&(event, _)| self.events[event as usize] == 0);
        missing.extend(unmet.map(|(_, name)| name.to_string()));
        missing.extend(self.measure_rules.missing().iter().map(|unmet| format!("measure: {unmet}")));
        missing.extend(self.program_rules.missing().iter().map(|unmet| format!("program: {unmet}")));
        missing.extend(self.sets.missing());
        missing.extend(self.savings.missing());
        missing.extend(self.moves.missing());
        missing.extend(self.slips.missing());
        missing.extend(self.limits.missing());
        missing.extend(self.texts.missing());
        missing.extend(self.pages.missing());
        missing.extend(self.desks.missing());
        missing.extend(self.segments.missing());
        missing.extend(self.reasons.missing());
        let unmet = (1..=Sheet::MOST_SPLITS).filter(|&depth| self.depths[depth] == 0);
        missing.extend(unmet.map(|depth| format!("accepted line at depth {depth}")));
        let unmet = SIZES.iter().zip(self.sizes).filter(|&(_, lines)| lines == 0);
        missing.extend(unmet.map(|(most, _)| format!("accepted line on a board of up to {most} points")));
        missing
    }

    /// The same for texts alone.
    pub fn missing_texts(&self) -> Vec<String> {
        let mut missing = self.missing_numbers(|operation| matches!(operation, ReadTsplib | TsplibPoints));
        missing.extend(self.texts.missing());
        missing
    }

    /// The same for desks alone.
    pub fn missing_desks(&self) -> Vec<String> {
        let mut missing = self.missing_numbers(|operation| matches!(operation, OpenDesks | HandIn | NextDesk | Turn));
        missing.extend(self.desks.missing());
        missing
    }

    /// The same for lines told alone.
    pub fn missing_reasons(&self) -> Vec<String> {
        let mut missing = self.missing_numbers(|operation| matches!(operation, TellLine));
        missing.extend(self.reasons.missing());
        missing
    }

    /// The numbers that some operations have not met.
    fn missing_numbers(&self, of: impl Fn(Operation) -> bool) -> Vec<String> {
        let mut missing = Vec::new();
        for (operation, name, numbers) in DEMANDS.into_iter().filter(|demand| of(demand.0)) {
            let unmet = numbers.iter().filter(|&&number| self.numbers[operation as usize][number] == 0);
            missing.extend(unmet.map(|number| format!("{name}: {number}")));
        }
        missing
    }
}

impl fmt::Display for Coverage {
    /// One row a number, one column an operation; "-" where the number cannot occur.
    fn fmt(&self, f: &mut fmt::Formatter) -> fmt::Result {
        write!(f, "{:>8}", "number")?;
        for (_, name, _) in DEMANDS {
            write!(f, "{name:>17}")?;
        }
        writeln!(f)?;
        for number in 0..NUMBERS {
            write!(f, "{number:>8}")?;
            for (operation, _, numbers) in DEMANDS {
                let times = self.numbers[operation as usize][number];
                let cell = if times == 0 && !numbers.contains(&number) { "-".to_string() } else { times.to_string() };
                write!(f, "{cell:>17}")?;
            }
            writeln!(f)?;
        }
        for (event, name) in EVENTS {
            writeln!(f, "{name}: {}", self.events[event as usize])?;
        }
        writeln!(f, "measure: {}\nprogram: {}\n{}", self.measure_rules, self.program_rules, self.sets)?;
        write!(f, "{}{}\n{}{}", self.savings, self.moves, self.slips, self.limits)?;
        write!(f, "{}\n{}{}{}{}", self.texts, self.pages, self.desks, self.segments, self.reasons)?;
        write!(f, "accepted lines by depth:")?;
        for depth in 1..=Sheet::MOST_SPLITS {
            write!(f, " {depth}: {}", self.depths[depth])?;
        }
        write!(f, "\naccepted lines by points up to:")?;
        for (most, lines) in SIZES.iter().zip(self.sizes) {
            write!(f, " {most}: {lines}")?;
        }
        writeln!(f)
    }
}
