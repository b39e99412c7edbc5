//! Boards made for a segment (02, Paper 10): paths of K whose edges are short, an order of inner points whose edges are
//! a little shorter, as short or longer, and all other edges long, so that pairs along the paths stand.

use crate::kit::generate::boards::Board;
use crate::kit::generate::rng::Rng;
use crate::kit::generate::segments::shuffled;
use crate::lengths::{edge_count, EdgeOrder};
use crate::sheet::Sheet;

type Pair = (u16, u16);

/// What K is.
#[derive(Clone, Copy, Debug, PartialEq, Eq)]
pub enum Shape {
    Path,
    /// A path, and another beside it.
    TwoPaths,
    ClosedTour,
}

/// A line's edge, splits with the pairs that are to stand, and a segment with an order of its inner points.
#[derive(Clone, Debug)]
pub struct MadePath {
    pub n: u16,
    pub ab: Pair,
    pub splits: Vec<(u16, Pair)>,
    pub ends: Pair,
    pub order: Vec<u16>,
}

/// The most points beside the path.
const MOST_SPARE: usize = 6;

impl MadePath {
    /// So many splits, two or more where K is no path, and so many inner points if there is room for them.
    pub fn new(rng: &mut Rng, shape: Shape, depth: usize, inner: usize) -> MadePath {
        let long = if shape == Shape::Path { depth } else { depth - 1 };
        let path_points = 2 * long + 2;
        let n = match shape {
            Shape::ClosedTour => path_points + 1,
            Shape::TwoPaths => path_points + rng.between(3, MOST_SPARE),
            Shape::Path => path_points + rng.below(MOST_SPARE),
        };
        let points = rng.points(n as u16, n);
        let (path, rest) = points.split_at(path_points);
        let (ab, mut splits) = along(rng, path);
        match shape {
            Shape::Path => {}
            Shape::TwoPaths => splits.insert(rng.below(long + 1), (rest[0], rising(rest[1], rest[2]))),
            Shape::ClosedTour => splits.push((rest[0], rising(path[0], path[path_points - 1]))),
        }
        let inner = inner.min(path_points - 2);
        let from = rng.below(path_points - 1 - inner);
        let (ends, order) = ((path[from], path[from + inner + 1]), other_order(rng, &path[from + 1..=from + inner]));
        MadePath { n: n as u16, ab, splits, ends, order }
    }

    fn known(&self) -> impl Iterator<Item = Pair> + '_ {
        let pairs = self.splits.iter().flat_map(|&(c, (x, y))| [(c, x), (c, y)]);
        std::iter::once(self.ab).chain(pairs)
    }

    /// The board: the order is mostly shorter.
    pub fn board(&self, rng: &mut Rng) -> Board {
        let (unit, tenths) = (rng.pick(&[10, 10, 1000]), rng.pick(&[9, 9, 9, 10, 11]));
        let edges = EdgeOrder::new(self.n);
        let mut table: Vec<u32> = (0..edge_count(self.n)).map(|_| rng.between(2 * unit, 100 * unit) as u32).collect();
        let new = [&[self.ends.0], &self.order[..], &[self.ends.1]].concat();
        new.windows(2).for_each(|two| table[edges.place(two[0], two[1])] = (unit * tenths / 10) as u32);
        self.known().for_each(|(a, b)| table[edges.place(a, b)] = unit as u32);
        Board { n: self.n, table, measured: None }
    }
}

/// Any order, of few points mostly the one that turns them: the others are mostly moves of a point, which test 5 shuts
/// out.
fn other_order(rng: &mut Rng, points: &[u16]) -> Vec<u16> {
    if points.len() <= 4 && rng.chance(70) {
        return points.iter().rev().copied().collect();
    }
    shuffled(rng, points)
}

fn rising(x: u16, y: u16) -> Pair {
    (x.min(y), x.max(y))
}

/// An edge of a path, and the splits that make the path of it, at either end in random order.
fn along(rng: &mut Rng, path: &[u16]) -> (Pair, Vec<(u16, Pair)>) {
    let edge = 2 * rng.below(path.len() / 2);
    let (mut left, mut right, mut splits) = (edge, edge + 1, Vec::with_capacity(Sheet::MOST_SPLITS));
    while left > 0 || right + 1 < path.len() {
        if left > 0 && (right + 1 == path.len() || rng.chance(50)) {
            splits.push((path[left - 1], rising(path[left], path[left - 2])));
            left -= 2;
        } else {
            splits.push((path[right + 1], rising(path[right], path[right + 2])));
            right += 2;
        }
    }
    ((path[edge], path[edge + 1]), splits)
}
