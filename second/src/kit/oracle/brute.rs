//! All shortest tours of small instances, by trying every order.

use crate::kit::generate::sets;
use crate::lengths::{edge_count, Lengths};
use crate::marks::OPEN;

/// Boards up to this many points are tried.
pub const MOST_POINTS: u16 = 9;

/// What all shortest tours come to.
pub struct Shortest {
    pub length: i32,
    /// For each edge, 1 if some shortest tour has it.
    pub useful: Vec<u8>,
}

struct Tours<'a> {
    lengths: &'a Lengths<'a>,
    path: Vec<u16>,
    /// Of the tours tried so far.
    shortest: Shortest,
}

impl Shortest {
    pub fn of(lengths: &Lengths) -> Shortest {
        let shortest = Shortest { length: i32::MAX, useful: vec![0; edge_count(lengths.order.n)] };
        let mut tours = Tours { lengths, path: vec![1], shortest };
        tours.extend(0);
        tours.shortest
    }

    /// The first edge of a shortest tour that is struck or pending, by its place.
    pub fn lost_edge(&self, marks: &[u8]) -> Option<usize> {
        self.useful.iter().zip(sets::marks(marks)).position(|(&used, mark)| used == 1 && mark != OPEN)
    }
}

impl Tours<'_> {
    /// Tries every order that begins with `path`, whose edges sum to `sum`.
    fn extend(&mut self, sum: i32) {
        let at = self.path[self.path.len() - 1];
        if self.path.len() == usize::from(self.lengths.order.n) {
            self.closed(sum + self.lengths.between(at, 1));
        }
        for next in 2..=self.lengths.order.n {
            let longer = sum + self.lengths.between(at, next);
            if longer <= self.shortest.length && !self.path.contains(&next) {
                self.path.push(next);
                self.extend(longer);
                self.path.pop();
            }
        }
    }

    fn closed(&mut self, length: i32) {
        let shortest = &mut self.shortest;
        if length < shortest.length {
            shortest.length = length;
            shortest.useful.fill(0);
        }
        if length == shortest.length {
            let mut at = self.path[self.path.len() - 1];
            for &next in &self.path {
                shortest.useful[self.lengths.order.place(at, next)] = 1;
                at = next;
            }
        }
    }
}
