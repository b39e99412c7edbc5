//! Calls for a saving: their points, the edges that they take out, and what can be wrong with them.

use crate::instance::Instance;
use crate::kit::damage::spoil::{self, Lent};
use crate::kit::generate::boards::Board;
use crate::kit::generate::rng::Rng;
use crate::kit::met::coverage::Operation;
use crate::kit::programs::checker::Checker;

/// One of the three savings.
#[derive(Clone, Copy, Debug, PartialEq, Eq)]
pub enum Saving {
    Exchange,
    Move,
    Crossing,
}

impl Saving {
    pub const ALL: [Saving; 3] = [Saving::Exchange, Saving::Move, Saving::Crossing];

    pub fn operation(self) -> Operation {
        match self {
            Saving::Exchange => Operation::ExchangeSaving,
            Saving::Move => Operation::MoveSaving,
            Saving::Crossing => Operation::CrossingSaving,
        }
    }

    /// The names of its points, in the order of a call.
    pub fn points(self) -> &'static [u8] {
        match self {
            Saving::Exchange => b"pqxy",
            Saving::Move => b"cxyuv",
            Saving::Crossing => b"pqrsxyzw",
        }
    }

    /// The edges taken out, each by the places of its ends.
    pub fn taken_out(self) -> &'static [(usize, usize)] {
        match self {
            Saving::Exchange => &[(0, 1), (2, 3)],
            Saving::Move => &[(0, 1), (0, 2), (3, 4)],
            Saving::Crossing => &[(0, 1), (2, 4), (2, 5), (3, 6), (3, 7)],
        }
    }

    /// Two points that may be the same, by their places: no edge taken out has them as its ends.
    pub fn may_meet(self) -> Vec<(usize, usize)> {
        let count = self.points().len();
        let all = (0..count).flat_map(|i| (i + 1..count).map(move |j| (i, j)));
        all.filter(|two| !self.taken_out().contains(two)).collect()
    }

    /// The number that a program answers.
    pub fn call(self, checker: &dyn Checker, n: u32, table: &[u8], points: &[u16]) -> i64 {
        match self {
            Saving::Exchange => checker.exchange_saving(n, table, points.try_into().unwrap()),
            Saving::Move => checker.move_saving(n, table, points.try_into().unwrap()),
            Saving::Crossing => checker.crossing_saving(n, table, points.try_into().unwrap()),
        }
    }
}

/// One call.
#[derive(Clone)]
pub struct SavingCall {
    pub saving: Saving,
    pub n: u32,
    pub table: Vec<u8>,
    pub points: Vec<u16>,
}

impl SavingCall {
    /// A call that is not refused, now and then with an entry at its limit; half of them with different points, if
    /// there are so many.
    pub fn new(rng: &mut Rng, board: &Board, saving: Saving) -> SavingCall {
        let Lent { n, mut table, .. } = Lent::new(board, &[]);
        if rng.chance(5) {
            spoil::some_entry(rng, &mut table, &[Instance::MOST_LENGTH]);
        }
        let different = rng.chance(50) && saving.points().len() <= usize::from(board.n);
        let points =
            if different { rng.points(board.n, saving.points().len()) } else { some_points(rng, board.n, saving) };
        SavingCall { saving, n, table, points }
    }

    /// Whether all points are different.
    pub fn different(&self) -> bool {
        (1..self.points.len()).all(|place| !self.points[..place].contains(&self.points[place]))
    }

    pub fn run(&self, checker: &dyn Checker) -> i64 {
        self.saving.call(checker, self.n, &self.table, &self.points)
    }
}

/// Points, the same ones too, that 11 lets through.
fn some_points(rng: &mut Rng, n: u16, saving: Saving) -> Vec<u16> {
    let mut points: Vec<u16> = Vec::new();
    for place in 0..saving.points().len() {
        let edge = saving.taken_out().iter().find(|edge| edge.1 == place);
        let (point, other_end) = (rng.point(n), edge.map(|edge| points[edge.0]));
        points.push(if Some(point) == other_end { point % n + 1 } else { point });
    }
    points
}

/// What is wrong with a call. A point is told by its place, an edge taken out by those of its ends.
#[derive(Clone, Copy, Debug, PartialEq, Eq)]
pub enum SavingFault {
    Count,
    /// So many bytes too few or too many.
    Shorter(usize),
    Longer(usize),
    Entry,
    Zero(usize),
    Above(usize),
    /// 256 higher, so that its lowest byte is a point.
    Higher(usize),
    Same(usize, usize),
}

use SavingFault::*;

impl SavingFault {
    pub fn all(saving: Saving) -> Vec<SavingFault> {
        let mut all = vec![Count, Shorter(1), Shorter(4), Longer(1), Longer(4), Entry];
        all.extend((0..saving.points().len()).flat_map(|place| [Zero(place), Above(place), Higher(place)]));
        all.extend(saving.taken_out().iter().map(|&(i, j)| Same(i, j)));
        all
    }

    /// A fault that this number is for.
    pub fn of(rng: &mut Rng, saving: Saving, number: i64) -> SavingFault {
        let all: Vec<SavingFault> = SavingFault::all(saving).into_iter().filter(|f| f.number() == number).collect();
        rng.pick(&all)
    }

    /// The refusal number.
    pub fn number(self) -> i64 {
        match self {
            Count => 1,
            Shorter(_) | Longer(_) => 2,
            Entry => 5,
            Zero(_) | Above(_) | Higher(_) | Same(..) => 11,
        }
    }

    /// Puts the fault into a call that has not got it.
    pub fn make(self, rng: &mut Rng, call: &mut SavingCall) {
        match self {
            Count => call.n = spoil::no_count(rng, call.n),
            Shorter(bytes) => call.table.truncate(call.table.len() - bytes),
            Longer(bytes) => call.table.resize(call.table.len() + bytes, 0),
            Entry => spoil::some_entry(rng, &mut call.table, &[Instance::MOST_LENGTH + 1, 1 << 31, u32::MAX]),
            Zero(place) => call.points[place] = 0,
            Above(place) => call.points[place] = call.n as u16 + 1,
            Higher(place) => call.points[place] += 256,
            Same(i, j) => call.points[j] = call.points[i],
        }
    }

    /// What it is, with the names of the points.
    pub fn told(self, saving: Saving) -> String {
        let name = |place: usize| char::from(saving.points()[place]);
        match self {
            Count => "n outside 4 to 180".to_string(),
            Shorter(bytes) => format!("a table too short by {bytes}"),
            Longer(bytes) => format!("a table too long by {bytes}"),
            Entry => "an entry above 2,000,000".to_string(),
            Zero(place) => format!("{} = 0", name(place)),
            Above(place) => format!("{} = n + 1", name(place)),
            Higher(place) => format!("{} above 256", name(place)),
            Same(i, j) => format!("{} = {}", name(i), name(j)),
        }
    }
}
