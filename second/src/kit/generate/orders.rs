//! Orders of the inner points of segments (02, Paper 10): the segments of K, and orders that save.

use crate::edge_set::EdgeSet;
use crate::intervals::Intervals;
use crate::kit::generate::rng::Rng;
use crate::segment::Segment;

/// A closing by a new order: the segment's ends and the order.
#[derive(Clone, Debug, PartialEq, Eq)]
pub struct Reordering {
    pub u: u16,
    pub v: u16,
    pub order: Vec<u16>,
}

/// Segments of fewer inner points have no order that saves: they are moves of a settled point, which test 5 has shut
/// out.
pub const LEAST_INNER: usize = 3;

/// Parts of a path that are tried beside the path itself.
const PARTS: usize = 3;

/// The points of K, rising.
pub fn points(known: &EdgeSet) -> Vec<u16> {
    let mut points: Vec<u16> = known.edges().iter().flat_map(|&(u, v)| [u, v]).collect();
    points.sort();
    points.dedup();
    points
}

/// K's segments with at least so many inner points, each both ways.
pub fn segments(known: &EdgeSet, n: u16, least: usize) -> Vec<(u16, u16, Segment)> {
    let points = points(known);
    let ends = points.iter().flat_map(|&u| points.iter().map(move |&v| (u, v)));
    let found = ends.filter_map(|(u, v)| Segment::find(known, n, u, v).map(|segment| (u, v, segment)));
    found.filter(|(_, _, segment)| segment.inner().len() >= least).collect()
}

/// A closing of K by an order that saves, if one is found: of a whole path, or of a part of it.
pub fn closing(rng: &mut Rng, known: &EdgeSet, l: &Intervals) -> Option<Reordering> {
    let mut all = segments(known, l.order.n, LEAST_INNER);
    rng.shuffle(&mut all);
    let whole = |u: u16, v: u16| known.degree(u) == 1 && known.degree(v) == 1;
    all.sort_by_key(|&(u, v, _)| !whole(u, v));
    let wholes = all.iter().take_while(|&&(u, v, _)| whole(u, v)).count();
    all.truncate(wholes + PARTS);
    if rng.chance(50) {
        all.reverse();
    }
    all.into_iter().find_map(|(u, v, segment)| better(rng, &segment, (u, v), l).map(|order| Reordering { u, v, order }))
}

/// An order that saves, if there is one: the best, or one near it.
pub fn better(rng: &mut Rng, segment: &Segment, ends: (u16, u16), l: &Intervals) -> Option<Vec<u16>> {
    let best = shortest(segment.inner(), ends, l);
    if segment.saving(&best, l) <= 0 {
        return None;
    }
    let mut near = best.clone();
    near.swap(rng.below(best.len()), rng.below(best.len()));
    Some(if segment.saving(&near, l) > 0 { near } else { best })
}

/// A shortest order of these points from u to v, put in: the least sum over each set of points and the last of them.
fn shortest(points: &[u16], (u, v): (u16, u16), l: &Intervals) -> Vec<u16> {
    let (count, full) = (points.len(), (1 << points.len()) - 1);
    let mut least = vec![i32::MAX; (full + 1) * count];
    for set in 1..=full {
        for last in (0..count).filter(|last| set >> last & 1 == 1) {
            let (rest, at) = (set & !(1 << last), points[last]);
            let by = |before: usize| least[rest * count + before] + l.put_in(points[before], at);
            let before = (0..count).filter(|before| rest >> before & 1 == 1);
            least[set * count + last] = before.map(by).min().unwrap_or(l.put_in(u, at));
        }
    }
    let (mut order, mut set, mut at) = (vec![], full, v);
    while set != 0 {
        let inside = (0..count).filter(|last| set >> last & 1 == 1);
        let last = inside.min_by_key(|&last| least[set * count + last] + l.put_in(points[last], at)).unwrap();
        (set, at) = (set & !(1 << last), points[last]);
        order.push(at);
    }
    order.reverse();
    order
}
