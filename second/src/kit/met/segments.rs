//! What was met of new orders of segments (02, Paper 10): orders judged and accepted, each damage, each way to hand a
//! sheet in, and what their strikes were held against.

use std::fmt;

use crate::kit::damage::segments::SegmentFault;
use crate::kit::generate::orders::LEAST_INNER;
use crate::kit::met::coverage::Operation;
use crate::segment::Segment;
use crate::sheet::Sheet;

/// A way to hand a sheet in.
#[derive(Clone, Copy, Debug, PartialEq, Eq)]
pub enum Way {
    Mark,
    Ask,
    Between,
    Turn,
}

impl Way {
    pub const ALL: [Way; 4] = [Way::Mark, Way::Ask, Way::Between, Way::Turn];

    pub fn operation(self) -> Operation {
        match self {
            Way::Mark => Operation::MarkSheet,
            Way::Ask => Operation::AskSheet,
            Way::Between => Operation::MarkBetween,
            Way::Turn => Operation::Turn,
        }
    }
}

/// What comes of a case with a new order.
#[derive(Clone, Copy, Debug, PartialEq, Eq)]
pub enum Outcome {
    Accepted,
    NoSegment,
    OtherPoints,
    NotShorter,
}

const OUTCOMES: [(Outcome, &str); 4] = [
    (Outcome::Accepted, "a new order accepted"),
    (Outcome::NoSegment, "23 before the chain"),
    (Outcome::OtherPoints, "23 after the chain"),
    (Outcome::NotShorter, "24"),
];

#[derive(Clone, Copy, Debug, PartialEq, Eq)]
pub enum SegmentEvent {
    /// Strikes of sheets with a record of kind 4 held against all shortest tours, over one table, over two, by turns.
    Strikes,
    StrikesBetween,
    StrikesByTurns,
    /// Tours that three exchanges cannot shorten, longer than a shortest one, with an edge that such a sheet has
    /// struck.
    ThreeOptStruck,
    /// The six points, where that is so.
    SixPoints,
    /// Orders that save over two different tables, over the low one alone, over the high one alone.
    SavesBetween,
    SavesByLow,
    SavesByHigh,
}

use SegmentEvent::*;

const EVENTS: [(SegmentEvent, &str); 8] = [
    (Strikes, "strikes of sheets with a new order held against all shortest tours"),
    (StrikesBetween, "strikes of sheets with a new order over two tables held against all shortest tours between"),
    (StrikesByTurns, "strikes of turns with a new order held against all shortest tours"),
    (ThreeOptStruck, "3-opt tours longer than another with an edge struck by a sheet with a new order"),
    (SixPoints, "the six points"),
    (SavesBetween, "orders that save over two different tables"),
    (SavesByLow, "orders that save over the low table alone, not over two"),
    (SavesByHigh, "orders that save over the high table alone, not over two"),
];

/// Judged and accepted orders, by a number from 1 on.
type Counts<const MOST: usize> = [[u64; MOST]; 2];

#[derive(Clone)]
pub struct SegmentsMet {
    events: [u64; EVENTS.len()],
    faults: [u64; SegmentFault::ALL.len()],
    ways: [[u64; OUTCOMES.len()]; Way::ALL.len()],
    /// By the number of inner points, and by the splits one inside another.
    inner: Counts<{ Segment::MOST_INNER }>,
    depths: Counts<{ Sheet::MOST_SPLITS }>,
}

impl Default for SegmentsMet {
    /// Nothing met.
    fn default() -> Self {
        SegmentsMet {
            events: [0; EVENTS.len()],
            faults: [0; SegmentFault::ALL.len()],
            ways: [[0; OUTCOMES.len()]; Way::ALL.len()],
            inner: [[0; Segment::MOST_INNER]; 2],
            depths: [[0; Sheet::MOST_SPLITS]; 2],
        }
    }
}

impl SegmentsMet {
    pub fn event(&mut self, event: SegmentEvent, times: u64) {
        self.events[event as usize] += times;
    }

    /// A sheet that got what its damage is for.
    pub fn fault(&mut self, fault: SegmentFault) {
        self.faults[fault as usize] += 1;
    }

    pub fn outcome(&mut self, way: Way, outcome: Outcome) {
        self.ways[way as usize][outcome as usize] += 1;
    }

    /// An order of the inner points, of so many, inside so many splits.
    pub fn judged(&mut self, inner: usize, depth: usize, accepted: bool) {
        self.inner[usize::from(accepted)][inner - 1] += 1;
        self.depths[usize::from(accepted)][depth - 1] += 1;
    }

    /// What was never met. No order of fewer than three inner points saves, so that none is accepted inside one split.
    /// That a 3-opt tour loses an edge by chance is rare: the six points stand for it.
    pub fn missing(&self) -> Vec<String> {
        let demanded = |event: SegmentEvent| event != ThreeOptStruck;
        let unmet = EVENTS.iter().filter(|&&(event, _)| demanded(event) && self.events[event as usize] == 0);
        let mut missing: Vec<String> = unmet.map(|(_, name)| name.to_string()).collect();
        let unmet = SegmentFault::ALL.iter().filter(|&&(fault, _)| self.faults[fault as usize] == 0);
        missing.extend(unmet.map(|(_, name)| format!("a new order with {name}")));
        for way in Way::ALL {
            let unmet = OUTCOMES.iter().filter(|&&(outcome, _)| self.ways[way as usize][outcome as usize] == 0);
            missing.extend(unmet.map(|(_, name)| format!("{}: {name}", way.operation().name())));
        }
        let not =
            |counts: &[u64], least: usize| (least..=counts.len()).filter(|at| counts[at - 1] == 0).collect::<Vec<_>>();
        for (at, what, least) in [(0, "not shorter", [1, 1]), (1, "accepted", [LEAST_INNER, 2])] {
            let inner = not(&self.inner[at], least[0]);
            missing.extend(inner.iter().map(|inner| format!("an order of {inner} inner points {what}")));
            let depths = not(&self.depths[at], least[1]);
            missing.extend(depths.iter().map(|depth| format!("an order inside {depth} splits {what}")));
        }
        missing
    }
}

impl fmt::Display for SegmentsMet {
    fn fmt(&self, f: &mut fmt::Formatter) -> fmt::Result {
        let told = |counts: &[u64]| counts.iter().map(u64::to_string).collect::<Vec<_>>().join(", ");
        EVENTS.iter().try_for_each(|&(event, name)| writeln!(f, "{name}: {}", self.events[event as usize]))?;
        for (what, at) in [("not shorter", 0), ("accepted", 1)] {
            writeln!(f, "orders {what} by inner points from 1: {}", told(&self.inner[at]))?;
            writeln!(f, "orders {what} by splits from 1: {}", told(&self.depths[at]))?;
        }
        for way in Way::ALL {
            let counts =
                OUTCOMES.map(|(outcome, name)| format!("{name}: {}", self.ways[way as usize][outcome as usize]));
            writeln!(f, "{}, {}", way.operation().name(), counts.join(", "))?;
        }
        writeln!(f, "new orders by damage: {}", told(&self.faults))
    }
}
