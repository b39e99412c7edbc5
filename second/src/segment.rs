//! The segment, Paper 10's stretch: a path in K, closed by a better order of its inner points (tests 23 and 24).

use crate::edge_set::EdgeSet;
use crate::intervals::Intervals;
use crate::refusal::Refusal;

/// Points in an order. As many are kept as a segment can have inner ones; those past them are counted.
#[derive(Clone, Copy, Debug, Default, PartialEq, Eq)]
pub struct Order {
    points: [u16; Segment::MOST_INNER],
    named: usize,
}

impl Order {
    pub fn push(&mut self, point: u16) {
        if let Some(place) = self.points.get_mut(self.named) {
            *place = point;
        }
        self.named += 1;
    }

    /// The points, if all of them were kept.
    fn whole(&self) -> Option<&[u16]> {
        self.points.get(..self.named)
    }
}

/// The path from u to v in K, by its inner points.
#[derive(Clone, Copy, Debug, PartialEq, Eq)]
pub struct Segment {
    u: u16,
    v: u16,
    inner: Order,
}

impl Segment {
    /// A path has an inner point fewer than it has edges.
    pub const MOST_INNER: usize = EdgeSet::MOST_EDGES - 1;

    /// "The path from u to v in K": at least one inner point, and none "where K is a closed tour". No point of K has
    /// three edges, and a cycle in it has n, so that a K of fewer edges has no cycle.
    pub fn find(known: &EdgeSet, n: u16, u: u16, v: u16) -> Option<Segment> {
        if known.edges().len() == usize::from(n) {
            return None;
        }
        known.ends(u).iter().find_map(|&first| inner_points(known, u, first, v)).map(|inner| Segment { u, v, inner })
    }

    /// The inner points in the path's order.
    pub fn inner(&self) -> &[u16] {
        &self.inner.points[..self.inner.named]
    }

    /// Whether an order names the inner points, each once. They are all different, so that as many points with each of
    /// them among them are just these.
    fn named_by(&self, order: &[u16]) -> bool {
        order.len() == self.inner.named && self.inner().iter().all(|point| order.contains(point))
    }

    /// The sum of the edges from u by these points to v.
    fn length(&self, points: &[u16], between: impl Fn(u16, u16) -> i32) -> i32 {
        let (mut sum, mut at) = (0, self.u);
        for &point in points {
            sum += between(at, point);
            at = point;
        }
        sum + between(at, self.v)
    }

    /// What an order of the inner points saves: the old path is taken out, the new one put in.
    pub fn saving(&self, order: &[u16], l: &Intervals) -> i32 {
        self.length(self.inner(), |a, b| l.taken_out(a, b)) - self.length(order, |a, b| l.put_in(a, b))
    }

    /// 23, "not its inner points"; 24, "not shorter".
    pub fn shortened_by(&self, order: &Order, l: &Intervals) -> Result<(), Refusal> {
        let order = order.whole().filter(|order| self.named_by(order)).ok_or(Refusal::NoSegment)?;
        if self.saving(order, l) > 0 {
            Ok(())
        } else {
            Err(Refusal::NotShorter)
        }
    }
}

/// The points between u and v on K's path from u by `first`, if it comes to v and there are any. K has no cycle.
fn inner_points(known: &EdgeSet, u: u16, first: u16, v: u16) -> Option<Order> {
    let (mut before, mut at, mut inner) = (u, first, Order::default());
    while at != v {
        inner.push(at);
        let &[one, other] = known.ends(at) else { return None };
        (before, at) = (at, if one == before { other } else { one });
    }
    (inner.named > 0).then_some(inner)
}
