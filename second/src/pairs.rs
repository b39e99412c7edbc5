//! The feasible pairs at a split point (01, Standing pairs; 02, Papers 7 and 11), found one after another.
//!
//! Over two tables a length counts high left of a "≥", where it is put in, and low right of it, where it is taken out.
//!
//! Test 5 moves each settled point of K with the pair, one that has two edges there, onto each edge
//! without it. K is {ab} or comes from pairs that stand, so none of its points moves within it: what
//! is left are c, x and y, and the two new edges.
//!
//! What does not depend on the pair is done once: `Split::new` keeps the points x whose edge cx
//! passes tests 1, 2 and 4 by itself, and 5 for points of K moved onto cx and for x moved onto K.
//! A pair of them is then held against one bound (test 5 for c, and for x moved onto cy), and, where
//! y is an end of K, against test 5 for y moved onto cx and the other end of x's path (test 3).

use crate::edge_set::EdgeSet;
use crate::instance::Instance;
use crate::intervals::Intervals;
use crate::marks::Marks;

/// Larger than every sum of lengths in test 5.
const NO_BOUND: i32 = 100_000_000;

/// An edge pq of K that does not touch c, with the lengths that test 4 compares.
#[derive(Clone, Copy, Default)]
pub struct FarEdge {
    p: u16,
    q: u16,
    length: i32,
    from_p: i32,
    from_q: i32,
}

impl FarEdge {
    pub fn new(l: &Intervals, (p, q): (u16, u16), c: u16) -> Self {
        FarEdge { p, q, length: l.taken_out(p, q), from_p: l.put_in(p, c), from_q: l.put_in(q, c) }
    }

    /// Test 4 for cx with l(cx) = leg: pq and cx are compatible, that is, the larger of
    /// l(pc) + l(qx) and l(px) + l(qc) is at least l(pq) + l(cx) (document 000, formula 1).
    /// Edges that share a point always are, since no low length is above its high one.
    #[inline(always)]
    pub fn allows(&self, l: &Intervals, x: u16, leg: i32) -> bool {
        let need = self.length + leg;
        x == self.p
            || x == self.q
            || self.from_p + l.put_in(self.q, x) >= need
            || self.from_q + l.put_in(self.p, x) >= need
    }
}

/// A point w with two edges in K, to s and t, as c sees it.
#[derive(Clone, Copy, Default)]
struct Settled {
    w: u16,
    /// l(cw) + l(st), put in, less l(sw) + l(tw), taken out.
    spare: i32,
}

impl Settled {
    fn new(l: &Intervals, (w, s, t): (u16, u16, u16), c: u16) -> Self {
        Settled { w, spare: l.put_in(c, w) + l.put_in(s, t) - l.taken_out(s, w) - l.taken_out(t, w) }
    }

    /// Test 5 for w and the edge cx with l(cx) = leg: l(st) + l(cw) + l(xw) ≥ l(cx) + l(sw) + l(tw).
    #[inline]
    fn stays(&self, l: &Intervals, x: u16, leg: i32) -> bool {
        l.put_in(x, self.w) + self.spare >= leg
    }
}

/// A point x whose edge cx may be in a pair.
#[derive(Clone, Copy, Default)]
struct Leg {
    x: u16,
    /// Where the split's `ends` have x, or 0 if it is none of them.
    end: u16,
    length: i32,
}

/// A leg's point x that has one edge in K, ex: cx settles it.
#[derive(Clone, Copy)]
struct End {
    /// The y that would close a short cycle with x, or 0.
    barred: u16,
    /// l(ex) + l(cx), taken out, less l(ec) + l(cx), put in: cx "counts as each". x does not move from between e and c
    /// onto the pair's other edge cy if l(xy) ≥ l(cy) + gain.
    gain: i32,
}

impl End {
    /// For a leg's point that is none.
    const NONE: End = End { barred: 0, gain: -NO_BOUND };
}

/// K as c sees it.
struct View<'a> {
    lengths: &'a Intervals<'a>,
    marks: Marks<'a>,
    known: &'a EdgeSet,
    c: u16,
    far: [FarEdge; EdgeSet::MOST_EDGES],
    far_count: usize,
    settled: [Settled; EdgeSet::MOST_EDGES],
    settled_count: usize,
}

impl<'a> View<'a> {
    fn new(lengths: &'a Intervals<'a>, marks: Marks<'a>, known: &'a EdgeSet, c: u16) -> Self {
        let (far, settled) = ([FarEdge::default(); EdgeSet::MOST_EDGES], [Settled::default(); EdgeSet::MOST_EDGES]);
        let mut view = View { lengths, marks, known, c, far, far_count: 0, settled, settled_count: 0 };
        for &(p, q) in known.edges().iter().filter(|&&(p, q)| p != c && q != c) {
            view.far[view.far_count] = FarEdge::new(lengths, (p, q), c);
            view.far_count += 1;
        }
        for wst in known.settled().filter(|&(w, _, _)| w != c) {
            view.settled[view.settled_count] = Settled::new(lengths, wst, c);
            view.settled_count += 1;
        }
        view
    }

    /// The edges of K that do not touch c.
    fn far(&self) -> &[FarEdge] {
        &self.far[..self.far_count]
    }

    /// The least l(uc) + l(vc), put in, less l(uv), taken out, over K's edges uv that do not touch c.
    fn bound(&self) -> i32 {
        self.far().iter().fold(NO_BOUND, |least, edge| least.min(edge.from_p + edge.from_q - edge.length))
    }

    /// l(cx), taken out, if cx is open and compatible with K (tests 1 and 4) and no point of K moves onto it (5); cx is
    /// not in K.
    #[inline]
    fn leg(&self, x: u16) -> Option<i32> {
        let l = self.lengths;
        let place = l.order.place(self.c, x);
        if !self.marks.open(place) {
            return None;
        }
        let leg = l.taken_out_at(place);
        let kept = self.far().iter().all(|edge| edge.allows(l, x, leg))
            && self.settled[..self.settled_count].iter().all(|point| point.stays(l, x, leg));
        kept.then_some(leg)
    }

    /// The gain of x, whose one edge in K is ex, if x does not move from between e and c onto an edge uv of K (test 5):
    /// l(ec) + l(ux) + l(vx) ≥ l(uv) + l(ex) + l(cx).
    fn gain(&self, x: u16, leg: i32) -> Option<i32> {
        let (l, e) = (self.lengths, self.known.ends(x)[0]);
        let gain = l.taken_out(e, x) + leg - l.put_in(e, self.c);
        let stays =
            |&(u, v): &(u16, u16)| u == x || v == x || l.put_in(u, x) + l.put_in(v, x) >= l.taken_out(u, v) + gain;
        self.known.edges().iter().all(stays).then(|| gain - l.put_in(self.c, x))
    }
}

/// Which pairs of legs are tried, from what K has at c.
#[derive(Clone, Copy)]
enum Choice {
    /// Every pair.
    Any,
    /// Pairs with the leg at this position, an edge of K.
    With(usize),
}

/// The pairs of one x: what they share, and the columns of legs that are left.
#[derive(Clone, Copy, Default)]
struct Row<'a> {
    x: u16,
    barred: u16,
    /// l(xc), taken out.
    length: i32,
    /// The bound less l(xc), or 0 less x's gain, whichever is smaller.
    spare: i32,
    /// l(xy), put in, for y = x + 1, .., n.
    lengths: &'a [u32],
    column: usize,
    end: usize,
}

impl Row<'_> {
    /// Test 5 for c, l(xy) + bound ≥ l(xc) + l(yc), and for x moved onto cy; then what an end y asks for.
    #[inline]
    fn stands(&self, y: Leg, ends: &[End]) -> bool {
        let xy = self.lengths[usize::from(y.x - self.x - 1)] as i32;
        xy + self.spare >= y.length && (y.end == 0 || self.stands_with(y, xy, ends[usize::from(y.end)]))
    }

    /// Test 5 for y moved onto cx, and test 3.
    #[inline]
    fn stands_with(&self, y: Leg, xy: i32, end: End) -> bool {
        xy >= self.length + end.gain && y.x != self.barred
    }
}

/// The search for the feasible pairs at c, in rising order.
pub struct Split<'a> {
    lengths: &'a Intervals<'a>,
    legs: [Leg; Instance::MOST_POINTS as usize],
    count: usize,
    /// The ends among the legs, from place 1 on.
    ends: [End; 2 * EdgeSet::MOST_EDGES + 1],
    end_count: u16,
    choice: Choice,
    bound: i32,
    /// Rows begun.
    rows: usize,
    row: Row<'a>,
}

impl<'a> Split<'a> {
    /// K is {ab}, or comes from it by pairs that stand.
    pub fn new(lengths: &'a Intervals<'a>, marks: Marks, known: &EdgeSet, c: u16) -> Self {
        let view = View::new(lengths, marks, known, c);
        let mut split = Split {
            lengths,
            legs: [Leg::default(); Instance::MOST_POINTS as usize],
            count: 0,
            ends: [End::NONE; 2 * EdgeSet::MOST_EDGES + 1],
            end_count: 0,
            choice: Choice::Any,
            bound: view.bound(),
            rows: 0,
            row: Row::default(),
        };
        match *known.ends(c) {
            [] => split.legs_anywhere(&view),
            [e] => split.legs_with(&view, e),
            [e, f] => split.legs_in_set(&view, e.min(f), e.max(f)),
            _ => unreachable!("no point has three edges"),
        }
        split
    }

    fn push(&mut self, leg: Leg) {
        self.legs[self.count] = leg;
        self.count += 1;
    }

    /// Keeps x, where cx is in K: it is open, compatible with K, and no point of K moves onto it.
    fn keep_known(&mut self, view: &View, x: u16) {
        self.push(Leg { x, end: 0, length: view.lengths.taken_out(view.c, x) });
    }

    /// Keeps x, which has no edge in K, if its leg passes.
    #[inline]
    fn keep_free(&mut self, view: &View, x: u16) {
        if let Some(length) = view.leg(x) {
            self.push(Leg { x, end: 0, length });
        }
    }

    /// Keeps x, which has one edge in K, if its leg passes.
    fn keep_end(&mut self, view: &View, x: u16, barred: u16) {
        if let Some(length) = view.leg(x) {
            if let Some(gain) = view.gain(x, length) {
                self.end_count += 1;
                self.ends[usize::from(self.end_count)] = End { barred, gain };
                self.push(Leg { x, end: self.end_count, length });
            }
        }
    }

    /// c has no edge in K: x and y have at most one, and are not the two ends of a short path.
    fn legs_anywhere(&mut self, view: &View) {
        let n = self.lengths.order.n;
        for x in (1..=n).filter(|&x| x != view.c) {
            match view.known.degree(x) {
                0 => self.keep_free(view, x),
                1 => {
                    let (end, edges) = view.known.far_end(x);
                    let barred = if edges + 2 < usize::from(n) { end } else { 0 };
                    self.keep_end(view, x, barred);
                }
                _ => {}
            }
        }
    }

    /// c has the edge ce in K: e is in the pair, and the other point has at most one edge and is
    /// not the far end of c's path, if that is short.
    fn legs_with(&mut self, view: &View, e: u16) {
        let n = self.lengths.order.n;
        let (end, edges) = view.known.far_end(view.c);
        let barred = if edges + 1 < usize::from(n) { end } else { 0 };
        for x in (1..=n).filter(|&x| x != view.c) {
            if x == e {
                self.choice = Choice::With(self.count);
                self.keep_known(view, x);
            } else if x != barred {
                match view.known.degree(x) {
                    0 => self.keep_free(view, x),
                    1 => self.keep_end(view, x, 0),
                    _ => {}
                }
            }
        }
    }

    /// c has two edges in K: they are the pair, and K stays as it is.
    fn legs_in_set(&mut self, view: &View, x: u16, y: u16) {
        self.keep_known(view, x);
        self.keep_known(view, y);
    }

    /// The columns to try for the leg at `row`.
    fn columns(&self, row: usize) -> (usize, usize) {
        match self.choice {
            Choice::With(kept) if row < kept => (kept, kept + 1),
            Choice::With(kept) if row > kept => (0, 0),
            _ => (row + 1, self.count),
        }
    }

    /// Goes on to the next row.
    fn start_row(&mut self) {
        let (column, end) = self.columns(self.rows);
        let Leg { x, end: at, length } = self.legs[self.rows];
        let End { barred, gain } = self.ends[usize::from(at)];
        let spare = (self.bound - length).min(-gain);
        self.row = Row { x, barred, length, spare, lengths: self.lengths.put_in_row(x), column, end };
        self.rows += 1;
    }

    /// The next feasible pair, x < y.
    pub fn next_pair(&mut self) -> Option<(u16, u16)> {
        loop {
            if let Some(pair) = self.next_in_row() {
                return Some(pair);
            }
            if self.rows == self.count {
                return None;
            }
            self.start_row();
        }
    }

    /// The next feasible pair of the current row.
    #[inline]
    fn next_in_row(&mut self) -> Option<(u16, u16)> {
        while self.row.column < self.row.end {
            let y = self.legs[self.row.column];
            self.row.column += 1;
            if self.row.stands(y, &self.ends) {
                return Some((self.row.x, y.x));
            }
        }
        None
    }
}
