//! A search for arguments: splits, crossings and new orders that close a line.

use crate::crossing::Crossing;
use crate::edge_set::EdgeSet;
use crate::intervals::Intervals;
use crate::kit::generate::orders::{self, Reordering};
use crate::kit::generate::rng::Rng;
use crate::marks::Marks;
use crate::pairs::Split;
use crate::sheet::Sheet;

/// A split at c with the cases that close it.
#[derive(Clone, Debug)]
pub struct SplitTree {
    pub c: u16,
    pub cases: Vec<CaseTree>,
}

#[derive(Clone, Debug)]
pub struct CaseTree {
    pub pair: (u16, u16),
    pub closing: ClosingTree,
}

#[derive(Clone, Debug)]
pub enum ClosingTree {
    Split(SplitTree),
    Crossing(Crossing),
    Reordering(Reordering),
}

/// An argument for a-b.
#[derive(Clone, Debug)]
pub struct Argument {
    pub a: u16,
    pub b: u16,
    pub split: SplitTree,
}

impl SplitTree {
    /// Splits one inside another, this one counted.
    pub fn depth(&self) -> usize {
        1 + self.cases.iter().map(CaseTree::depth).max().unwrap_or(0)
    }

    pub fn records(&self) -> usize {
        self.cases.iter().map(CaseTree::records).sum()
    }
}

impl CaseTree {
    fn depth(&self) -> usize {
        match &self.closing {
            ClosingTree::Split(split) => split.depth(),
            ClosingTree::Crossing(_) | ClosingTree::Reordering(_) => 0,
        }
    }

    fn records(&self) -> usize {
        match &self.closing {
            ClosingTree::Split(split) => 1 + split.records(),
            ClosingTree::Crossing(_) => 1,
            ClosingTree::Reordering(reordering) => 1 + reordering.order.len(),
        }
    }
}

/// How hard to search.
#[derive(Clone, Copy, Debug)]
pub struct Effort {
    /// Cases that may be tried for one line.
    pub cases: usize,
    /// Split points that are weighed at each split.
    pub points: usize,
    /// Split points that are tried at each split.
    pub tries: usize,
    /// Further splits inside a case that is not wanted deep.
    pub depth: usize,
    /// Cases in a hundred that a new order is sought for, before a crossing.
    pub orders: usize,
}

impl Effort {
    pub const LIGHT: Effort = Effort { cases: 150, points: 14, tries: 2, depth: 2, orders: 0 };
    pub const LARGE: Effort = Effort { cases: 150, points: 60, tries: 2, depth: 2, orders: 0 };
    pub const DEEP: Effort = Effort { cases: 400, points: 60, tries: 2, depth: 3, orders: 0 };
}

pub struct Search<'a> {
    lengths: &'a Intervals<'a>,
    marks: Marks<'a>,
    rng: &'a mut Rng,
    effort: Effort,
    known: EdgeSet,
    cases_left: usize,
    taste: Taste,
}

/// Which split points come first.
#[derive(Clone, Copy, PartialEq, Eq)]
enum Taste {
    /// Those with the fewest pairs, none at best.
    Fewest,
    /// Those with pairs, so that crossings have to close them; of these the fewest.
    FewestOfSome,
    /// Any with a handful of pairs.
    Handful,
    /// Those off K, so that K grows; of these the fewest.
    OffK,
}

impl<'a> Search<'a> {
    pub fn new(lengths: &'a Intervals<'a>, marks: &'a [u8], rng: &'a mut Rng, effort: Effort) -> Self {
        let taste = rng.pick(&[Taste::Fewest, Taste::FewestOfSome, Taste::Handful, Taste::OffK]);
        Search { lengths, marks: Marks::in_sheet(marks), rng, effort, known: EdgeSet::empty(), cases_left: 0, taste }
    }

    /// An argument for a-b, if one is found; `want` splits one inside another if possible.
    pub fn argue(&mut self, a: u16, b: u16, want: usize) -> Option<Argument> {
        self.known = EdgeSet::one(a, b);
        self.cases_left = self.effort.cases;
        let left = if want > 1 { Sheet::MOST_SPLITS - 1 } else { self.effort.depth };
        let split = self.split(left, want - 1)?;
        Some(Argument { a, b, split })
    }

    /// An argument for a-b whose first split is at c, if one is found.
    pub fn argue_at(&mut self, a: u16, b: u16, c: u16) -> Option<Argument> {
        self.known = EdgeSet::one(a, b);
        self.cases_left = self.effort.cases;
        let cases = self.cases(c, self.effort.depth, 0)?;
        Some(Argument { a, b, split: SplitTree { c, cases } })
    }

    /// A closed split; `left` further splits may lie inside, `want` shall.
    fn split(&mut self, left: usize, want: usize) -> Option<SplitTree> {
        for c in self.split_points(want) {
            if let Some(cases) = self.cases(c, left, want) {
                return Some(SplitTree { c, cases });
            }
        }
        None
    }

    /// The split points to try, by taste.
    fn split_points(&mut self, want: usize) -> Vec<u16> {
        let mut points = self.some_points();
        self.rng.shuffle(&mut points);
        points.truncate(self.effort.points);
        let mut weighed: Vec<(usize, u16)> = points.iter().map(|&c| (self.pair_count(c), c)).collect();
        if want > 0 {
            weighed.retain(|&(pairs, _)| pairs > 0);
        }
        weighed.sort_by_key(|&(pairs, c)| match self.taste {
            Taste::FewestOfSome if pairs == 0 => 8,
            Taste::Handful if pairs <= 5 => 0,
            Taste::OffK if pairs == 0 || self.known.degree(c) > 0 => pairs + 10,
            _ => pairs,
        });
        weighed.iter().take(self.effort.tries).map(|&(_, c)| c).collect()
    }

    /// All points of a small board; else those on K and some others.
    fn some_points(&mut self) -> Vec<u16> {
        let n = self.lengths.order.n;
        if usize::from(n) <= self.effort.points {
            return (1..=n).collect();
        }
        let mut points: Vec<u16> = self.known.edges().iter().flat_map(|&(u, v)| [u, v]).collect();
        points.extend((0..self.effort.points).map(|_| self.rng.point(n)));
        points.sort();
        points.dedup();
        points
    }

    fn pairs(&self, c: u16, most: usize) -> Vec<(u16, u16)> {
        let mut split = Split::new(self.lengths, self.marks, &self.known, c);
        std::iter::from_fn(|| split.next_pair()).take(most).collect()
    }

    fn pair_count(&self, c: u16) -> usize {
        self.pairs(c, 60).len()
    }

    /// Closes every pair at c; one of them goes deep.
    fn cases(&mut self, c: u16, left: usize, want: usize) -> Option<Vec<CaseTree>> {
        let pairs = self.pairs(c, self.cases_left + 1);
        if pairs.len() > self.cases_left {
            return None;
        }
        let deep = self.rng.below(pairs.len().max(1));
        let mut cases = Vec::with_capacity(pairs.len());
        for (i, &pair) in pairs.iter().enumerate() {
            self.cases_left = self.cases_left.checked_sub(1)?;
            let before = self.known.add_pair(c, pair);
            let closing =
                if i == deep { self.closing(left, want) } else { self.closing(left.min(self.effort.depth), 0) };
            self.known.cut_back(before);
            cases.push(CaseTree { pair, closing: closing? });
        }
        Some(cases)
    }

    /// A further split where one is wanted, else a new order or a crossing, else a further split.
    fn closing(&mut self, left: usize, want: usize) -> Option<ClosingTree> {
        if left > 0 && want > 0 {
            if let Some(split) = self.split(left - 1, want - 1) {
                return Some(ClosingTree::Split(split));
            }
        }
        if let Some(reordering) = self.reordering() {
            return Some(ClosingTree::Reordering(reordering));
        }
        if let Some(crossing) = self.crossing() {
            return Some(ClosingTree::Crossing(crossing));
        }
        if left == 0 {
            return None;
        }
        self.split(left - 1, 0).map(ClosingTree::Split)
    }

    /// A new order that saves, if one is to be sought.
    fn reordering(&mut self) -> Option<Reordering> {
        if self.effort.orders == 0 || !self.rng.chance(self.effort.orders) {
            return None;
        }
        orders::closing(self.rng, &self.known, self.lengths)
    }

    /// A crossing that saves, any of them.
    fn crossing(&mut self) -> Option<Crossing> {
        let saving: Vec<Crossing> = crossings(self.known.edges(), self.lengths.order.n)
            .into_iter()
            .filter(|crossing| crossing.saves(&self.known, self.lengths))
            .collect();
        if saving.is_empty() {
            return None;
        }
        Some(self.rng.pick(&saving))
    }
}

/// Every crossing whose edge and centres keep to the conditions (test 15 passes).
pub fn crossings(edges: &[(u16, u16)], n: u16) -> Vec<Crossing> {
    let mut known = EdgeSet::empty();
    for &(u, v) in edges {
        known.add(u, v);
    }
    let centres: Vec<u16> = (1..=n).filter(|&v| known.degree(v) == 2).collect();
    let mut all = Vec::new();
    for &(p, q) in edges {
        for (i, &r) in centres.iter().enumerate() {
            let with_r = centres[i + 1..].iter().map(|&s| Crossing { p, q, r, s });
            all.extend(with_r.filter(|crossing| crossing.in_place(&known)));
        }
    }
    all
}
