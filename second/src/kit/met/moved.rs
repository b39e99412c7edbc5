//! Pairs that only the wider test 5 shuts out (02, Paper 7): they stand if the split point alone is moved.

use crate::edge_set::EdgeSet;
use crate::intervals::Intervals;
use crate::marks::Marks;
use crate::pairs::FarEdge;
use crate::saving::moving;

/// Larger boards have too many such pairs to look at each.
pub const MOST_POINTS: u16 = 30;

/// A settled point, beside the split point, of K with the pair.
#[derive(Clone, Copy, Debug, PartialEq, Eq)]
pub enum Mover {
    /// x, the lower point of the pair.
    Lower,
    /// y, the higher one.
    Higher,
    Other,
}

impl Mover {
    pub const ALL: [Mover; 3] = [Mover::Lower, Mover::Higher, Mover::Other];

    pub fn name(self) -> &'static str {
        match self {
            Mover::Lower => "x",
            Mover::Higher => "y",
            Mover::Other => "another point",
        }
    }

    fn of(w: u16, (x, y): (u16, u16)) -> Mover {
        match w {
            _ if w == x => Mover::Lower,
            _ if w == y => Mover::Higher,
            _ => Mover::Other,
        }
    }
}

/// The best move of each `Mover`, if it has any.
#[derive(Clone, Copy, Default)]
pub struct Moved([Option<i64>; Mover::ALL.len()]);

impl Moved {
    /// Of the pair at c under K.
    pub fn of(l: &Intervals, known: &EdgeSet, c: u16, pair: (u16, u16)) -> Moved {
        let mut more = known.clone();
        more.add_pair(c, pair);
        let mut moved = Moved::default();
        for (w, s, t) in more.settled().filter(|&(w, _, _)| w != c) {
            let onto = more.edges().iter().filter(|&&(u, v)| u != w && v != w);
            let best = onto.map(|&uv| moving(l, w, (s, t), uv)).max();
            let place = &mut moved.0[Mover::of(w, pair) as usize];
            *place = best.max(*place);
        }
        moved
    }

    /// Whether the pair is shut out.
    pub fn shuts_out(&self) -> bool {
        self.0.iter().any(|&best| best > Some(0))
    }

    /// The only one whose moves save more than 0, or where none do, save 0.
    pub fn decides(&self) -> Option<Mover> {
        let least = i64::from(self.shuts_out());
        let mut movers = Mover::ALL.into_iter().filter(|&mover| self.0[mover as usize] >= Some(least));
        movers.next().filter(|_| movers.next().is_none())
    }
}

/// The points x whose edge cx is in K or passes tests 1, 2 and 4 by itself, rising.
fn legs(l: &Intervals, marks: Marks, known: &EdgeSet, c: u16) -> Vec<u16> {
    let far = known.edges().iter().filter(|&&(p, q)| p != c && q != c);
    let far: Vec<FarEdge> = far.map(|&pq| FarEdge::new(l, pq, c)).collect();
    let passes = |x: u16| {
        let fits = known.degree(x) < 2 && marks.open(l.order.place(c, x));
        fits && far.iter().all(|edge| edge.allows(l, x, l.taken_out(c, x)))
    };
    (1..=l.order.n).filter(|&x| x != c && (known.contains(c, x) || passes(x))).collect()
}

/// Whether the pair closes a cycle of fewer than n edges. c has at most one edge in K, and this is one of the pair's.
fn closes_short_cycle(n: u16, known: &EdgeSet, c: u16, (x, y): (u16, u16)) -> bool {
    let new: Vec<u16> = [x, y].into_iter().filter(|&v| !known.contains(c, v)).collect();
    let (from, to) = if let [x, y] = new[..] { (x, y) } else { (c, new[0]) };
    if known.degree(from) == 0 {
        return false;
    }
    let (end, edges) = known.far_end(from);
    end == to && edges + new.len() < usize::from(n)
}

/// The pairs at c that pass tests 1 to 4, and 5 for c, rising; c has at most one edge in K.
pub fn pairs<'a>(l: &'a Intervals, marks: Marks, known: &'a EdgeSet, c: u16) -> impl Iterator<Item = (u16, u16)> + 'a {
    let legs = legs(l, marks, known, c);
    let all = (0..legs.len()).flat_map(|i| (i + 1..legs.len()).map(move |j| (i, j)));
    let all: Vec<(u16, u16)> = all.map(|(i, j)| (legs[i], legs[j])).collect();
    let far = move |&&(u, v): &&(u16, u16)| u != c && v != c;
    all.into_iter().filter(move |&(x, y)| {
        let fits = known.degree(c) == 0 || known.contains(c, x) || known.contains(c, y);
        fits && known.edges().iter().filter(far).all(|&uv| moving(l, c, (x, y), uv) <= 0)
            && !closes_short_cycle(l.order.n, known, c, (x, y))
    })
}
