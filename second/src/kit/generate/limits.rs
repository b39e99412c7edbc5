//! Instances whose lengths are known within limits: two tables, and tables between them (02, Paper 11).

use crate::instance::Instance;
use crate::intervals::Intervals;
use crate::kit::generate::boards::{self, Board};
use crate::kit::generate::rng::Rng;

/// How far low and high lengths lie apart.
#[derive(Clone, Copy, Debug, PartialEq, Eq)]
pub enum Width {
    /// Nowhere.
    Equal,
    /// By some parts in a thousand of the length, at most.
    Narrow,
    /// By up to the length itself.
    Wide,
    /// By one, or not at all: ties of one table are lost or kept.
    One,
    /// Narrow at a few edges, exact at all others.
    FewEdges,
}

impl Width {
    pub const ALL: [Width; 5] = [Width::Equal, Width::Narrow, Width::Wide, Width::One, Width::FewEdges];

    pub fn name(self) -> &'static str {
        match self {
            Width::Equal => "equal limits",
            Width::Narrow => "narrow limits",
            Width::Wide => "wide limits",
            Width::One => "limits of one",
            Width::FewEdges => "limits at a few edges",
        }
    }

    /// What a high length is above its low one.
    fn above(self, rng: &mut Rng, low: u32, thousandths: usize) -> u32 {
        let narrow = low as usize * thousandths / 1000;
        let above = match self {
            Width::Equal => 0,
            Width::Narrow => rng.between(0, narrow),
            Width::Wide => rng.between(0, low as usize),
            Width::One => rng.below(2),
            Width::FewEdges => rng.pick(&[0, 0, 0, 0, 0, narrow]),
        };
        above as u32
    }
}

/// Low and high lengths of n points.
#[derive(Clone, Debug)]
pub struct Limited {
    pub n: u16,
    pub low: Vec<u32>,
    pub high: Vec<u32>,
    pub width: Width,
}

impl Limited {
    /// A board's lengths as the low ones, with high ones above.
    pub fn above(rng: &mut Rng, board: &Board, width: Width) -> Limited {
        let thousandths = rng.pick(&[5, 20, 50, 150]);
        Limited::apart(rng, board, width, thousandths)
    }

    /// The same, where narrow limits lie apart by at most so many thousandths.
    pub fn apart(rng: &mut Rng, board: &Board, width: Width, thousandths: usize) -> Limited {
        let low = board.table.clone();
        let above = |&low: &u32| (low + width.above(rng, low, thousandths)).min(Instance::MOST_LENGTH);
        let high = low.iter().map(above).collect();
        Limited { n: board.n, low, high, width }
    }

    /// Limits of any width over any board up to this many points.
    pub fn random(rng: &mut Rng, most: u16) -> Limited {
        let width = rng.pick(&Width::ALL);
        let board = loop {
            let board = if rng.chance(60) { even_points(rng) } else { boards::board(rng) };
            if board.n <= most {
                break board;
            }
        };
        let mut limited = Limited::above(rng, &board, width);
        if width == Width::Wide && rng.chance(30) {
            limited.widest(rng);
        }
        limited
    }

    /// Some low length becomes 0, and some high one the largest there is.
    fn widest(&mut self, rng: &mut Rng) {
        let edges = self.low.len();
        self.low[rng.below(edges)] = 0;
        self.high[rng.below(edges)] = Instance::MOST_LENGTH;
    }

    pub fn lengths(&self) -> Intervals<'_> {
        Intervals::new(self.n, &self.low, &self.high)
    }

    /// The instance whose lengths are these.
    pub fn board(&self, table: Vec<u32>) -> Board {
        Board { n: self.n, table, measured: None }
    }

    pub fn all_low(&self) -> Board {
        self.board(self.low.clone())
    }

    pub fn all_high(&self) -> Board {
        self.board(self.high.clone())
    }

    /// Each length is at one of its ends.
    pub fn at_ends(&self, rng: &mut Rng) -> Board {
        self.cut(|low, high| rng.pick(&[low, high]))
    }

    /// Each length is anywhere between its ends.
    pub fn inside(&self, rng: &mut Rng) -> Board {
        self.cut(|low, high| rng.between(low as usize, high as usize) as u32)
    }

    fn cut(&self, mut length: impl FnMut(u32, u32) -> u32) -> Board {
        self.board(self.low.iter().zip(&self.high).map(|(&low, &high)| length(low, high)).collect())
    }
}

/// Points on a square: lines are accepted there in spite of narrow limits.
fn even_points(rng: &mut Rng) -> Board {
    let (n, most) = (rng.between(6, 20) as u16, rng.pick(&[30, 1000, 1000, 1_000_000]));
    boards::points_of(rng, n, most)
}
