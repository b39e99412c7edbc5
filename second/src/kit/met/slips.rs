//! Which slips were met, and which two of them.

use std::fmt;

use crate::refusal::Refusal;
use crate::slip::Slip;

/// What a comparison has to meet of slips.
#[derive(Clone, Copy, Debug, PartialEq, Eq)]
pub enum Met {
    /// Random slips, shown.
    Accepted,
    Stopped,
    ReleasedAccepted,
    ReleasedStopped,
    BitsAbove,
    /// Slips of sheets.
    SheetAccepted,
    SheetTurnedDown,
    SheetLimits,
    SheetStopped,
    SheetStoppedLater,
    /// Buffers of a view.
    NoBytes,
    FiveBytes,
    SixBytes,
    BytesPast,
    /// Two unreleased slips: alike to the candidate though different, of sheets, too; not alike for one of the two
    /// facts.
    AlikeNumbers,
    AlikeRecords,
    AlikeSheets,
    OtherLines,
    OtherOutcome,
    /// Two slips alike to the examiner: the same but for the bits above.
    SameButAbove,
    /// Released once more.
    ReleasedTwice,
}

use Met::*;

const NAMES: [(Met, &str); 21] = [
    (Accepted, "slips of no refusal"),
    (Stopped, "slips of a refusal"),
    (ReleasedAccepted, "released slips of no refusal"),
    (ReleasedStopped, "released slips of a refusal"),
    (BitsAbove, "slips with bits above 40"),
    (SheetAccepted, "slips of accepted sheets"),
    (SheetTurnedDown, "slips of sheets refused at no record"),
    (SheetLimits, "slips of sheets refused by 25"),
    (SheetStopped, "slips of sheets stopped before a line was accepted"),
    (SheetStoppedLater, "slips of sheets stopped after accepted lines"),
    (NoBytes, "views in no byte"),
    (FiveBytes, "views in five bytes"),
    (SixBytes, "views in six bytes"),
    (BytesPast, "views with bytes past them"),
    (AlikeNumbers, "slips alike to the candidate with other numbers"),
    (AlikeRecords, "slips alike to the candidate with other records"),
    (AlikeSheets, "different slips of sheets alike to the candidate"),
    (OtherLines, "slips that differ to the candidate in the lines alone"),
    (OtherOutcome, "slips that differ to the candidate in the outcome alone"),
    (SameButAbove, "slips alike to the examiner with other bits above 40"),
    (ReleasedTwice, "slips released twice"),
];

#[derive(Clone, Default)]
pub struct SlipsMet {
    times: [u64; NAMES.len()],
    /// Slips of sheets so far.
    pub sheets: u64,
}

impl SlipsMet {
    pub fn met(&mut self, what: Met, holds: bool) {
        self.times[what as usize] += u64::from(holds);
    }

    /// A slip with what its number has above it, shown in so many bytes.
    pub fn shown(&mut self, slip: Slip, above: u64, size: usize) {
        self.met(Accepted, !slip.released && !slip.stopped());
        self.met(Stopped, !slip.released && slip.stopped());
        self.met(ReleasedAccepted, slip.released && !slip.stopped());
        self.met(ReleasedStopped, slip.released && slip.stopped());
        self.met(BitsAbove, above != 0);
        self.met(NoBytes, size == 0);
        self.met(FiveBytes, size == Slip::VIEW - 1);
        self.met(SixBytes, size == Slip::VIEW);
        self.met(BytesPast, size > Slip::VIEW);
    }

    /// The slip of a sheet.
    pub fn sheet(&mut self, slip: Slip) {
        self.sheets += 1;
        self.met(SheetAccepted, !slip.stopped());
        self.met(SheetTurnedDown, slip.stopped() && slip.record == 0);
        self.met(SheetLimits, slip.refusal == Refusal::LowAboveHigh.number());
        self.met(SheetStopped, slip.record != 0 && slip.lines == 0);
        self.met(SheetStoppedLater, slip.record != 0 && slip.lines != 0);
    }

    /// Two unreleased slips.
    pub fn unreleased(&mut self, one: Slip, other: Slip) {
        let (lines, outcome) = (one.lines == other.lines, one.stopped() == other.stopped());
        self.met(AlikeNumbers, lines && outcome && one.refusal != other.refusal);
        self.met(AlikeRecords, lines && outcome && one.record != other.record);
        self.met(OtherLines, !lines && outcome);
        self.met(OtherOutcome, lines && !outcome);
    }

    /// What was never met.
    pub fn missing(&self) -> Vec<String> {
        let unmet = NAMES.iter().filter(|&&(what, _)| self.times[what as usize] == 0);
        unmet.map(|(_, name)| name.to_string()).collect()
    }
}

impl fmt::Display for SlipsMet {
    fn fmt(&self, f: &mut fmt::Formatter) -> fmt::Result {
        NAMES.iter().try_for_each(|&(what, name)| writeln!(f, "{name}: {}", self.times[what as usize]))
    }
}
