//! The crossing (01, Arguments; tests 15 and 16).

use crate::edge_set::EdgeSet;
use crate::intervals::Intervals;
use crate::refusal::Refusal;

/// The other ends of a centre's two edges.
type Ends = (u16, u16);

/// An edge pq and two centres.
#[derive(Clone, Copy, Debug, PartialEq, Eq)]
pub struct Crossing {
    pub p: u16,
    pub q: u16,
    pub r: u16,
    pub s: u16,
}

impl Crossing {
    /// Test 15 passes: pq is in K, the centres differ and are neither p nor q, each has exactly
    /// two edges in K, and rs is not in K.
    pub fn in_place(&self, known: &EdgeSet) -> bool {
        let Crossing { p, q, r, s } = *self;
        known.contains(p, q)
            && r != s
            && ![p, q].contains(&r)
            && ![p, q].contains(&s)
            && known.degree(r) == 2
            && known.degree(s) == 2
            && !known.contains(r, s)
    }

    /// Whether one of the four labellings saves on both moves.
    pub fn saves(&self, known: &EdgeSet, l: &Intervals) -> bool {
        let (r_ends, s_ends) = (known.ends(self.r), known.ends(self.s));
        for (x, y) in [(r_ends[0], r_ends[1]), (r_ends[1], r_ends[0])] {
            for (z, w) in [(s_ends[0], s_ends[1]), (s_ends[1], s_ends[0])] {
                if self.labelling_saves(l, (x, y), (z, w)) {
                    return true;
                }
            }
        }
        false
    }

    /// l(pq) + l(rx) + l(sw) > l(rs) + l(px) + l(qw), and
    /// l(pq) + l(ry) + l(sz) > l(rs) + l(pz) + l(qy).
    /// That is, `labelling_saving` is above 0; the second is often spared.
    pub fn labelling_saves(&self, l: &Intervals, (x, y): Ends, (z, w): Ends) -> bool {
        let Crossing { p, q, r, s } = *self;
        let (pq, rs) = (l.taken_out(p, q), l.put_in(r, s));
        pq + l.taken_out(r, x) + l.taken_out(s, w) > rs + l.put_in(p, x) + l.put_in(q, w)
            && pq + l.taken_out(r, y) + l.taken_out(s, z) > rs + l.put_in(p, z) + l.put_in(q, y)
    }

    /// Its saving (02, Paper 5): "of four labellings the best".
    pub fn saving(&self, l: &Intervals, (x, y): Ends, (z, w): Ends) -> i64 {
        let labelling = |xy, zw| self.labelling_saving(l, xy, zw);
        let kept = labelling((x, y), (z, w)).max(labelling((x, y), (w, z)));
        let swapped = labelling((y, x), (z, w)).max(labelling((y, x), (w, z)));
        kept.max(swapped)
    }

    /// The smaller of l(pq) + l(rx) + l(sw) − l(rs) − l(px) − l(qw) and l(pq) + l(ry) + l(sz) − l(rs) − l(pz) − l(qy).
    pub fn labelling_saving(&self, l: &Intervals, (x, y): Ends, (z, w): Ends) -> i64 {
        let Crossing { p, q, r, s } = *self;
        let both = l.taken_out(p, q) - l.put_in(r, s);
        let first = both + l.taken_out(r, x) + l.taken_out(s, w) - l.put_in(p, x) - l.put_in(q, w);
        let second = both + l.taken_out(r, y) + l.taken_out(s, z) - l.put_in(p, z) - l.put_in(q, y);
        i64::from(first.min(second))
    }

    /// Tests 15 and 16.
    pub fn closes(&self, known: &EdgeSet, l: &Intervals) -> Result<(), Refusal> {
        if !self.in_place(known) {
            Err(Refusal::CrossingPlace)
        } else if !self.saves(known, l) {
            Err(Refusal::NoSaving)
        } else {
            Ok(())
        }
    }
}
