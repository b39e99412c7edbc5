//! Which reasons were told, and how lines were asked for.

use std::fmt;

/// What a comparison has to meet of the pairs of a first split.
#[derive(Clone, Copy, Debug, PartialEq, Eq)]
pub enum Reasoned {
    /// Struck edges: c-x alone, c-y alone, both, so that the lower one is told; and a pending one in either place.
    StruckFirst,
    StruckSecond,
    StruckBoth,
    PendingFirst,
    PendingSecond,
    ThirdEdge,
    Loop,
    /// Exchanges: of c-x alone, of c-y alone, of both, also where the higher one saves more.
    ExchangeFirst,
    ExchangeSecond,
    ExchangeBoth,
    ExchangeLess,
    /// Moves: of c, with no end of ab in the pair; with one, of that end, which is lower, and of c, which is.
    MoveFree,
    MoveEnd,
    MoveSplit,
    Split,
    /// A test told where a later one fails, too.
    StruckBeforeThird,
    StruckBeforeLoop,
    StruckBeforeExchange,
    StruckBeforeMove,
    ExchangeBeforeMove,
    /// Pairs that stand by an exchange that saves 0, and by such a move.
    ExchangeTie,
    MoveTie,
}

use Reasoned::*;

const REASONS: [(Reasoned, &str); 22] = [
    (StruckFirst, "the first edge struck"),
    (StruckSecond, "the second edge struck"),
    (StruckBoth, "the lower of two struck edges"),
    (PendingFirst, "the first edge pending, told as struck"),
    (PendingSecond, "the second edge pending, told as struck"),
    (ThirdEdge, "a third edge"),
    (Loop, "a loop"),
    (ExchangeFirst, "an exchange of the first edge"),
    (ExchangeSecond, "an exchange of the second edge"),
    (ExchangeBoth, "the lower of two exchanges"),
    (ExchangeLess, "the lower of two exchanges, which saves less"),
    (MoveFree, "the split point moved, no end of the line's edge in the pair"),
    (MoveEnd, "an end of the line's edge moved, below the split point"),
    (MoveSplit, "the split point moved, below the end of the line's edge in the pair"),
    (Split, "a further split"),
    (StruckBeforeThird, "a struck edge before a third edge"),
    (StruckBeforeLoop, "a struck edge before a loop"),
    (StruckBeforeExchange, "a struck edge before an exchange"),
    (StruckBeforeMove, "a struck edge before a move"),
    (ExchangeBeforeMove, "an exchange before a move"),
    (ExchangeTie, "a pair that stands by an exchange that saves 0"),
    (MoveTie, "a pair that stands by a move that saves 0"),
];

/// What a comparison has to meet of the calls.
#[derive(Clone, Copy, Debug, PartialEq, Eq)]
pub enum Met {
    /// Lines told: the first record and a later one, without a case and with several, from marks with pending ones and
    /// from those that the lines before leave, with a next index that 8 or 9 is for, with a > b, and on boards of 100
    /// points and more.
    FirstRecord,
    LaterRecord,
    NoCase,
    SeveralCases,
    PendingMarks,
    MarksBefore,
    NextAbove,
    NextNotRising,
    HigherFirst,
    ManyPoints,
    /// Buffers of the text's size, longer, a byte too short, and of no byte, where a refused line gets its own refusal.
    ExactBuffer,
    BytesPast,
    OneByteTooFew,
    NoBytes,
    RefusedNoBytes,
    /// 8 with record 0: for 0, one past the count, a line's number in the lowest 16 bits, the largest number.
    RecordZero,
    RecordPast,
    RecordByLowBits,
    RecordLargest,
    /// 7 where there is no such record, either.
    NoRecords,
    /// 12 for a struck and for a pending edge, 9 for a first case below the line.
    StruckLine,
    PendingLine,
    CaseBelow,
    /// A record that is no line.
    CaseAsked,
}

use Met::*;

const CALLS: [(Met, &str); 24] = [
    (FirstRecord, "lines in the first record"),
    (LaterRecord, "lines in a later record"),
    (NoCase, "lines without a case"),
    (SeveralCases, "lines with several cases"),
    (PendingMarks, "lines over pending marks"),
    (MarksBefore, "lines over the marks that the lines before leave"),
    (NextAbove, "lines with a next index above the count"),
    (NextNotRising, "lines with a next index that does not rise"),
    (HigherFirst, "lines with the higher point first"),
    (ManyPoints, "lines of 100 points and more"),
    (ExactBuffer, "texts in a buffer of their size"),
    (BytesPast, "texts with bytes past them"),
    (OneByteTooFew, "texts refused by 22 for one byte"),
    (NoBytes, "texts refused by 22 for no byte"),
    (RefusedNoBytes, "lines refused without a byte for the text"),
    (RecordZero, "8 for record 0"),
    (RecordPast, "8 for the record past the last"),
    (RecordByLowBits, "8 for a line's number in the lowest 16 bits"),
    (RecordLargest, "8 for the largest record number"),
    (NoRecords, "7 before 8"),
    (StruckLine, "12 for a struck edge"),
    (PendingLine, "12 for a pending edge"),
    (CaseBelow, "9 for a first case below the line"),
    (CaseAsked, "10 for a record that is no line"),
];

/// The refusals of a line, each of which names a record.
const REFUSALS: [u64; 11] = [8, 9, 10, 11, 12, 13, 14, 15, 16, 23, 24];

/// Those of them that a record behind the line can have: all but 12.
const BEHIND: [u64; 10] = [8, 9, 10, 11, 13, 14, 15, 16, 23, 24];

#[derive(Clone, Default)]
pub struct ReasonsMet {
    /// Sheets whose lines were asked for.
    pub sheets: u64,
    /// Lines told.
    pub lines: u64,
    reasons: [u64; REASONS.len()],
    calls: [u64; CALLS.len()],
    at_line: [u64; 30],
    behind: [u64; 30],
}

impl ReasonsMet {
    pub fn reason(&mut self, what: Reasoned) {
        self.reasons[what as usize] += 1;
    }

    pub fn met(&mut self, what: Met, holds: bool) {
        self.calls[what as usize] += u64::from(holds);
    }

    /// A refusal that names the line told, or a record behind it.
    pub fn refused(&mut self, number: u64, record: u64, line: u64) {
        let times = if record == line { &mut self.at_line } else { &mut self.behind };
        times[number as usize] += 1;
    }

    /// What was never met.
    pub fn missing(&self) -> Vec<String> {
        let unmet = REASONS.iter().filter(|&&(what, _)| self.reasons[what as usize] == 0);
        let mut missing: Vec<String> = unmet.map(|(_, name)| format!("told: {name}")).collect();
        let unmet = CALLS.iter().filter(|&&(what, _)| self.calls[what as usize] == 0);
        missing.extend(unmet.map(|(_, name)| format!("told: {name}")));
        let unmet =
            REFUSALS.iter().filter(|&&number| self.at_line[number as usize] + self.behind[number as usize] == 0);
        missing.extend(unmet.map(|number| format!("told: {number} with its record")));
        let unmet = BEHIND.iter().filter(|&&number| self.behind[number as usize] == 0);
        missing.extend(unmet.map(|number| format!("told: {number} with a record behind the line")));
        missing
    }
}

impl fmt::Display for ReasonsMet {
    fn fmt(&self, f: &mut fmt::Formatter) -> fmt::Result {
        writeln!(f, "told: {} sheets, {} lines", self.sheets, self.lines)?;
        REASONS.iter().try_for_each(|&(what, name)| writeln!(f, "told: {name}: {}", self.reasons[what as usize]))?;
        CALLS.iter().try_for_each(|&(what, name)| writeln!(f, "told: {name}: {}", self.calls[what as usize]))?;
        write!(f, "told: refusals at the line and behind it:")?;
        REFUSALS.iter().try_for_each(|&number| {
            let (at, behind) = (self.at_line[number as usize], self.behind[number as usize]);
            write!(f, " {number}: {at} and {behind};")
        })?;
        writeln!(f)
    }
}
