//! Why a pair at a split does not stand, for any K (02, Paper 6): the first test in 01's order that fails, and in it
//! the lowest point or the lowest edge in edge order.

use std::iter::successors;

use crate::edge_set::EdgeSet;
use crate::intervals::Intervals;
use crate::marks::Marks;
use crate::saving::{exchange, moving};

/// An edge, its lower point first.
pub type Edge = (u16, u16);

/// What is told of a pair: why it does not stand, or what closes its case. The points of a loop rise, an exchange has
/// the pair's edge and one of K, a crossing has its points as the record has them, and a new order goes from one end of
/// its segment to the other, both told.
#[derive(Clone, Debug, PartialEq, Eq)]
pub enum Reason {
    Struck { edge: Edge },
    ThirdEdge { point: u16 },
    Loop { points: Vec<u16> },
    Exchange { leg: Edge, edge: Edge, saving: i64 },
    Move { point: u16, edge: Edge, saving: i64 },
    Crossing { edge: (u16, u16), centres: (u16, u16), saving: i64 },
    Split { point: u16 },
    NewOrder { points: Vec<u16>, saving: i64 },
}

fn rising(a: u16, b: u16) -> Edge {
    (a.min(b), a.max(b))
}

/// K with a pair, in edge order.
struct Joined {
    edges: [Edge; Joined::MOST_EDGES],
    count: usize,
}

impl Joined {
    const MOST_EDGES: usize = EdgeSet::MOST_EDGES + 2;

    fn new(known: &[Edge], legs: [Edge; 2]) -> Joined {
        let mut joined = Joined { edges: [(0, 0); Joined::MOST_EDGES], count: 0 };
        known.iter().chain(&legs).for_each(|&edge| joined.insert(edge));
        joined
    }

    fn insert(&mut self, edge: Edge) {
        let at = self.edges().iter().take_while(|&&other| other < edge).count();
        if self.edges().get(at) != Some(&edge) {
            self.edges.copy_within(at..self.count, at + 1);
            self.edges[at] = edge;
            self.count += 1;
        }
    }

    fn edges(&self) -> &[Edge] {
        &self.edges[..self.count]
    }

    /// The lowest point of the set above this one.
    fn point_after(&self, point: u16) -> Option<u16> {
        let above = self.edges().iter().map(|&(u, v)| if u > point { u } else { v });
        above.filter(|&end| end > point).min()
    }

    /// The points of the set, rising.
    fn points(&self) -> impl Iterator<Item = u16> + '_ {
        successors(self.point_after(0), |&point| self.point_after(point))
    }

    /// The other ends of the edges at a point.
    fn ends(&self, point: u16) -> impl Iterator<Item = u16> + '_ {
        self.edges().iter().filter_map(move |&(u, v)| match point {
            _ if u == point => Some(v),
            _ if v == point => Some(u),
            _ => None,
        })
    }

    /// The other ends of a point's edges, if it has exactly two.
    fn two_ends(&self, point: u16) -> Option<(u16, u16)> {
        let mut ends = self.ends(point);
        let two = (ends.next()?, ends.next()?);
        ends.next().is_none().then_some(two)
    }

    /// The points from `start` on, by its first edge, until a point has no further edge or the next one is `start`. No
    /// point has three edges.
    fn walk(&self, start: u16) -> impl Iterator<Item = u16> + '_ {
        let next = move |&(before, at): &(u16, u16)| {
            let (one, other) = self.two_ends(at)?;
            let next = if one == before { other } else { one };
            (next != start).then_some((at, next))
        };
        successors(Some((0, start)), next).map(|(_, at)| at)
    }

    /// Whether a cycle of fewer than n edges goes through a point: the walk by one of its edges comes back by the
    /// other.
    fn short_cycle(&self, n: u16, start: u16) -> bool {
        let Some((_, other)) = self.two_ends(start) else { return false };
        let (edges, last) = self.walk(start).fold((0, start), |(edges, _), at| (edges + 1, at));
        last == other && edges < n
    }
}

/// The reasons at one split.
pub struct Reasons<'a> {
    lengths: &'a Intervals<'a>,
    marks: Marks<'a>,
    /// K, in edge order.
    known: Vec<Edge>,
    c: u16,
}

impl<'a> Reasons<'a> {
    pub fn new(lengths: &'a Intervals<'a>, marks: Marks<'a>, known: &EdgeSet, c: u16) -> Self {
        let mut known: Vec<Edge> = known.edges().iter().map(|&(u, v)| rising(u, v)).collect();
        known.sort();
        Reasons { lengths, marks, known, c }
    }

    /// Why the pair does not stand, if it does not.
    pub fn shut_out(&self, (x, y): (u16, u16)) -> Option<Reason> {
        let mut legs = [rising(self.c, x), rising(self.c, y)];
        legs.sort();
        if let Some(&edge) = legs.iter().find(|&&(u, v)| !self.marks.open(self.lengths.order.place(u, v))) {
            return Some(Reason::Struck { edge });
        }
        let joined = Joined::new(&self.known, legs);
        if let Some(point) = joined.points().find(|&point| joined.ends(point).count() > 2) {
            return Some(Reason::ThirdEdge { point });
        }
        self.looped(&joined).or_else(|| self.exchanged(legs)).or_else(|| self.moved(&joined))
    }

    /// Test 3.
    fn looped(&self, joined: &Joined) -> Option<Reason> {
        let start = joined.points().find(|&point| joined.short_cycle(self.lengths.order.n, point))?;
        let mut points: Vec<u16> = joined.walk(start).collect();
        points.sort();
        Some(Reason::Loop { points })
    }

    /// Test 4.
    fn exchanged(&self, legs: [Edge; 2]) -> Option<Reason> {
        let both = legs.iter().flat_map(|&leg| self.known.iter().map(move |&edge| (leg, edge)));
        let mut savings = both.map(|(leg, edge)| (leg, edge, exchange(self.lengths, leg, edge)));
        let (leg, edge, saving) = savings.find(|&(_, _, saving)| saving > 0)?;
        Some(Reason::Exchange { leg, edge, saving })
    }

    /// Test 5.
    fn moved(&self, joined: &Joined) -> Option<Reason> {
        joined.points().find_map(|point| {
            let between = joined.two_ends(point)?;
            let others = joined.edges().iter().filter(|&&(u, v)| u != point && v != point);
            let mut savings = others.map(|&edge| (edge, moving(self.lengths, point, between, edge)));
            let (edge, saving) = savings.find(|&(_, saving)| saving > 0)?;
            Some(Reason::Move { point, edge, saving })
        })
    }
}
