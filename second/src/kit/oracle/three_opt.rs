//! Tours that cannot be made shorter by taking out at most three edges and putting in as many (02, Paper 9), by a
//! search from a random order.
//!
//! Three edges taken out leave three paths. One of them stays where it is; the two others, the stretches, are put back
//! in either order, each as it was or turned. These are all tours with all other edges, those with two edges changed
//! too.

use crate::kit::generate::rng::Rng;
use crate::lengths::Lengths;
use crate::marks::OPEN;
use crate::packed::mark;

/// Boards up to this many points are searched.
pub const MOST_POINTS: u16 = 30;

/// A tour that three exchanges cannot shorten, from a random order.
pub fn search(rng: &mut Rng, lengths: &Lengths) -> Vec<u16> {
    let mut tour: Vec<u16> = (1..=lengths.order.n).collect();
    rng.shuffle(&mut tour);
    while let Some(shorter) = shortened(lengths, &tour) {
        tour = shorter;
    }
    tour
}

/// A shorter tour that lacks at most three edges of this one, if there is one.
pub fn shortened(lengths: &Lengths, tour: &[u16]) -> Option<Vec<u16>> {
    let n = tour.len();
    let two = (0..n).flat_map(|i| (i + 1..n).map(move |j| (i, j)));
    let mut three = two.flat_map(|(i, j)| (j + 1..n).map(move |k| Cut { tour, i, j, k }));
    three.find_map(|cut| cut.shortened(lengths))
}

/// A tour's edges as pairs of points.
pub fn edges(tour: &[u16]) -> impl Iterator<Item = (u16, u16)> + '_ {
    tour.iter().copied().zip(tour.iter().copied().cycle().skip(1))
}

pub fn length(lengths: &Lengths, tour: &[u16]) -> i32 {
    edges(tour).map(|(a, b)| lengths.between(a, b)).sum()
}

/// The first edge of a tour that is struck or pending.
pub fn lost_edge(lengths: &Lengths, tour: &[u16], marks: &[u8]) -> Option<(u16, u16)> {
    edges(tour).find(|&(a, b)| mark(marks, lengths.order.place(a, b)) != OPEN)
}

/// A tour without the edges behind the places i < j < k.
struct Cut<'a> {
    tour: &'a [u16],
    i: usize,
    j: usize,
    k: usize,
}

/// Points in the tour's order, or turned.
#[derive(Clone, Copy)]
struct Stretch<'a> {
    points: &'a [u16],
    turned: bool,
}

impl Stretch<'_> {
    /// The first point and the last.
    fn ends(&self) -> (u16, u16) {
        let (low, high) = (self.points[0], self.points[self.points.len() - 1]);
        if self.turned {
            (high, low)
        } else {
            (low, high)
        }
    }

    fn put_behind(&self, tour: &mut Vec<u16>) {
        let behind = tour.len();
        tour.extend(self.points);
        if self.turned {
            tour[behind..].reverse();
        }
    }
}

/// Whether the stretches change places, and whether each is turned.
const WAYS: [(bool, [bool; 2]); 7] = [
    (false, [false, true]),
    (false, [true, false]),
    (false, [true, true]),
    (true, [false, false]),
    (true, [false, true]),
    (true, [true, false]),
    (true, [true, true]),
];

impl<'a> Cut<'a> {
    /// The stretches in the order in which they are put back.
    fn stretches(&self, (swapped, turned): (bool, [bool; 2])) -> [Stretch<'a>; 2] {
        let low = Stretch { points: &self.tour[self.i + 1..=self.j], turned: turned[0] };
        let high = Stretch { points: &self.tour[self.j + 1..=self.k], turned: turned[1] };
        if swapped {
            [high, low]
        } else {
            [low, high]
        }
    }

    /// The sum of the three edges that join these stretches to each other and to the path that stays.
    fn joined(&self, lengths: &Lengths, [first, second]: [Stretch; 2]) -> i32 {
        let (before, behind) = (self.tour[self.i], self.tour[(self.k + 1) % self.tour.len()]);
        let ((x, y), (z, w)) = (first.ends(), second.ends());
        lengths.between(before, x) + lengths.between(y, z) + lengths.between(w, behind)
    }

    /// The tour with the edges put in by the first way that shortens.
    fn shortened(&self, lengths: &Lengths) -> Option<Vec<u16>> {
        let taken = self.joined(lengths, self.stretches((false, [false; 2])));
        let mut ways = WAYS.iter().map(|&way| self.stretches(way));
        ways.find(|&stretches| self.joined(lengths, stretches) < taken).map(|stretches| self.with(stretches))
    }

    /// The tour with these stretches between the places i and k.
    fn with(&self, stretches: [Stretch; 2]) -> Vec<u16> {
        let mut tour = self.tour[..=self.i].to_vec();
        stretches.iter().for_each(|stretch| stretch.put_behind(&mut tour));
        tour.extend(&self.tour[self.k + 1..]);
        tour
    }
}
