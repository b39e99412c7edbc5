//! What was met at desks: sheets and how they ended, turns and handings-in, changes between turns, states of any bytes.

use std::fmt;

use crate::desks::Desks;
use crate::kit::generate::halls::Change;

/// What a comparison has to meet of desks, beside each desk and each change.
#[derive(Clone, Copy, Debug, PartialEq, Eq)]
pub enum Met {
    /// Sheets that ended as marked alone: with one line and with several, stopped at the first line and at a later one,
    /// by 8 and by 9 at the next index of an accepted line; with other desks served and sheets handed in between the
    /// turns.
    OneLine,
    SeveralLines,
    StoppedFirst,
    StoppedLater,
    NextAbove,
    NextNotAbove,
    AmongOthers,
    /// Sheets with a line left, as the same sheet cut behind its last accepted line.
    Beginnings,
    /// Tests that failed at a turn after accepted lines, which are told.
    LinesKept,
    /// Sheets handed in again after one that ended whole, after one that stopped, and over a line, faulty ones, too.
    AgainAfterWhole,
    AgainAfterStop,
    OverLine,
    OverLineFaulty,
    /// 28 for desk 0, for desk 9, for a desk by its lowest byte and for the largest number; for faulty sheets, too.
    DeskZero,
    DeskNine,
    DeskByLowByte,
    DeskLargest,
    NoDeskFaulty,
    /// States of no byte, of 49, of 50 and of more; 22 before 28 and before 29.
    NoBytes,
    OneByteTooFew,
    ExactState,
    BytesPast,
    ShortNoDesk,
    ShortOverLine,
    /// Turns with no line left: of desks just opened, and after sheets have ended.
    NothingYet,
    NothingLeft,
    /// Turns that served a desk after seven of others, that went round behind desk 8, that passed over desks without a
    /// line, and that served the same desk again.
    EighthTurn,
    Round,
    PassedOver,
    SameAgain,
    /// States of any bytes: a last desk served above 8; desks without a line left for their lines; 8 by the owner that
    /// the state tells; lines accepted from such a state.
    LastAboveEight,
    LinesNotBelow,
    AnyOwner,
    AnyAccepted,
    /// Strikes of turns held against all shortest tours; those from states of any bytes, too.
    Strikes,
    AnyStrikes,
}

use Met::*;

const NAMES: [(Met, &str); 36] = [
    (OneLine, "sheets of one line that ended whole by a turn, as marked alone"),
    (SeveralLines, "sheets of several lines that ended whole by turns, as marked alone"),
    (StoppedFirst, "sheets that stopped at their first line, as marked alone"),
    (StoppedLater, "sheets that stopped at a later line, as marked alone"),
    (NextAbove, "sheets that stopped by 8 at the next index of an accepted line, as marked alone"),
    (NextNotAbove, "sheets that stopped by 9 at the next index of an accepted line, as marked alone"),
    (AmongOthers, "sheets marked by turns among turns and handings-in of other desks, as marked alone"),
    (Beginnings, "sheets with a line left, as the same cut behind the last line accepted"),
    (LinesKept, "tests that failed at a turn after accepted lines"),
    (AgainAfterWhole, "sheets handed in after one that ended whole"),
    (AgainAfterStop, "sheets handed in after one that stopped"),
    (OverLine, "sheets handed in over a line"),
    (OverLineFaulty, "faulty sheets handed in over a line"),
    (DeskZero, "sheets handed in at desk 0"),
    (DeskNine, "sheets handed in at desk 9"),
    (DeskByLowByte, "sheets handed in at desks above 256"),
    (DeskLargest, "sheets handed in at the largest number"),
    (NoDeskFaulty, "faulty sheets handed in at no desk"),
    (NoBytes, "states of no byte"),
    (OneByteTooFew, "states a byte too short"),
    (ExactState, "states of their size"),
    (BytesPast, "states with bytes past them"),
    (ShortNoDesk, "22 before 28"),
    (ShortOverLine, "22 before 29"),
    (NothingYet, "turns at desks just opened"),
    (NothingLeft, "turns after all sheets have ended"),
    (EighthTurn, "desks served after seven turns of others"),
    (Round, "turns that went round behind desk 8"),
    (PassedOver, "turns that passed over a desk without a line"),
    (SameAgain, "turns that served the same desk again"),
    (LastAboveEight, "turns after a last desk above 8"),
    (LinesNotBelow, "desks of any bytes without a line left"),
    (AnyOwner, "8 by the owner that a state of any bytes tells"),
    (AnyAccepted, "lines accepted from a state of any bytes"),
    (Strikes, "strikes of turns held against all shortest tours"),
    (AnyStrikes, "strikes from states of any bytes held against all shortest tours"),
];

#[derive(Clone)]
pub struct DesksMet {
    times: [u64; NAMES.len()],
    /// Halls so far.
    pub halls: u64,
    turns: u64,
    handed_in: [u64; Desks::COUNT],
    served: [u64; Desks::COUNT],
    changes: [u64; Change::ALL.len()],
}

impl Default for DesksMet {
    /// Nothing met.
    fn default() -> Self {
        let (handed_in, served) = ([0; Desks::COUNT], [0; Desks::COUNT]);
        DesksMet { times: [0; NAMES.len()], halls: 0, turns: 0, handed_in, served, changes: [0; Change::ALL.len()] }
    }
}

impl DesksMet {
    pub fn met(&mut self, what: Met, holds: bool) {
        self.times[what as usize] += u64::from(holds);
    }

    pub fn handed_in(&mut self, desk: usize) {
        self.handed_in[desk - 1] += 1;
    }

    pub fn served(&mut self, desk: usize) {
        self.turns += 1;
        self.served[desk - 1] += 1;
    }

    /// A turn after a change of its folder.
    pub fn changed(&mut self, change: Change) {
        self.changes[change as usize] += 1;
    }

    /// What was never met.
    pub fn missing(&self) -> Vec<String> {
        let unmet = NAMES.iter().filter(|&&(what, _)| self.times[what as usize] == 0);
        let mut missing: Vec<String> = unmet.map(|(_, name)| name.to_string()).collect();
        for (what, counts) in [("a sheet handed in at", self.handed_in), ("a turn of", self.served)] {
            let unmet = (1..=Desks::COUNT).filter(|&desk| counts[desk - 1] == 0);
            missing.extend(unmet.map(|desk| format!("{what} desk {desk}")));
        }
        let unmet = Change::ALL.iter().filter(|&&(change, _)| self.changes[change as usize] == 0);
        missing.extend(unmet.map(|(_, name)| format!("a turn after {name}")));
        missing
    }
}

impl fmt::Display for DesksMet {
    fn fmt(&self, f: &mut fmt::Formatter) -> fmt::Result {
        let told = |counts: &[u64]| counts.iter().map(u64::to_string).collect::<Vec<_>>().join(", ");
        writeln!(f, "halls: {}, turns: {}", self.halls, self.turns)?;
        writeln!(f, "sheets handed in at desks 1 to 8: {}", told(&self.handed_in))?;
        writeln!(f, "turns of desks 1 to 8: {}", told(&self.served))?;
        NAMES.iter().try_for_each(|&(what, name)| writeln!(f, "{name}: {}", self.times[what as usize]))?;
        for (change, name) in Change::ALL {
            writeln!(f, "turns after {name}: {}", self.changes[change as usize])?;
        }
        Ok(())
    }
}
