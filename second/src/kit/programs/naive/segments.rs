//! A case closed by a new order, sentence by sentence from Paper 10: the segment is sought among all paths from u to v,
//! and an order by sorting.

use super::mistake::Mistake;
use super::reader::{Reader, Stop};
use super::rules::{other_ends, Board, Edge};

/// All paths of K that begin with these points and end at v, no point twice.
fn paths(k: &[Edge], path: &[usize], v: usize) -> Vec<Vec<usize>> {
    let at = path[path.len() - 1];
    if at == v {
        return vec![path.to_vec()];
    }
    let next = other_ends(k, at).into_iter().filter(|w| !path.contains(w));
    next.flat_map(|w| paths(k, &[path, &[w]].concat(), v)).collect()
}

fn sorted(points: &[usize]) -> Vec<usize> {
    let mut points = points.to_vec();
    points.sort();
    points
}

impl Board<'_> {
    /// "The stretch is the path from u to v in K": the only one, and with an inner point.
    pub fn segment(&self, k: &[Edge], u: usize, v: usize) -> Option<Vec<usize>> {
        let mut found = paths(k, &[u], v);
        if self.makes(Mistake::ClosedTourTaken) {
            found.retain(|path| path.len() > 2);
            found.truncate(1);
        }
        let least = if self.makes(Mistake::NoInnerPoint) { 1 } else { 3 };
        let inside = self.makes(Mistake::PathEndsOnly) && [u, v].iter().any(|&w| other_ends(k, w).len() == 2);
        match &found[..] {
            [path] if path.len() >= least && !inside => Some(path.clone()),
            _ => None,
        }
    }

    /// "Its inner points, each once."
    fn names(&self, order: &[usize], inner: &[usize]) -> bool {
        let (mut named, inner) = (sorted(order), sorted(inner));
        match self.mistake {
            Some(Mistake::PointTwice) => named.dedup(),
            Some(Mistake::PointMissing) if named.windows(2).all(|two| two[0] < two[1]) => {
                return named.iter().all(|point| inner.contains(point));
            }
            Some(Mistake::AnyPoints) => return named.len() == inner.len(),
            _ => {}
        }
        named == inner
    }

    /// "Strictly shorter": the old path is taken out, the new one put in.
    fn shorter(&self, path: &[usize], order: &[usize]) -> bool {
        let (u, v) = (path[0], path[path.len() - 1]);
        let mut new = [&[u], order, &[v]].concat();
        if self.makes(Mistake::OrderBackwards) {
            new = [&[u], &order.iter().rev().copied().collect::<Vec<_>>()[..], &[v]].concat();
        }
        let out = |a, b| if self.makes(Mistake::OldPathHigh) { self.put(a, b) } else { self.out(a, b) };
        let put = |a, b| if self.makes(Mistake::OrderCountsLow) { self.out(a, b) } else { self.put(a, b) };
        let old: i64 = path.windows(2).map(|two| out(two[0], two[1])).sum();
        let new: i64 = new.windows(2).map(|two| put(two[0], two[1])).sum();
        new < old || self.makes(Mistake::OrderAsShort) && new == old
    }
}

impl Reader<'_> {
    /// Whether 23 is due before the chain is entered; the pair is among the edges.
    pub fn no_segment(&self, k: &[Edge], index: usize) -> bool {
        let record = &self.records[index - 1];
        self.board.segment(k, record[3], record[4]).is_none()
    }

    /// Tests 10 and 11 of a point: "its other fields but next are 0".
    fn point_tests(&self, index: usize) -> Result<(), Stop> {
        let record = &self.records[index - 1];
        let unused = if self.board.makes(Mistake::PointFieldUnread) { 2..6 } else { 2..7 };
        if record[0] != 5 || record[unused].iter().any(|&field| field != 0) {
            return Err((10, index));
        }
        if !self.point(record[1]) && !self.board.makes(Mistake::PointUnread) {
            return Err((11, index));
        }
        Ok(())
    }

    /// The points of a chain, and the last record of it.
    fn points(&mut self, owner: usize, first: usize) -> Result<(Vec<usize>, usize), Stop> {
        let (mut order, mut last, mut index, entered) = (vec![], owner, first, self.entered.clone());
        while index != 0 {
            self.enter(last, index)?;
            self.point_tests(index)?;
            order.push(self.records[index - 1][1]);
            last = index;
            index = self.records[index - 1][7];
            if order.len() > 12 && self.board.makes(Mistake::LongChainCut) {
                break;
            }
        }
        if self.board.makes(Mistake::PointsNotEntered) {
            self.entered = entered;
        }
        Ok((order, last))
    }

    /// Closes a case by a new order: 23, the chain, 23, 24. The pair is among the edges.
    pub fn reorder(&mut self, k: &[Edge], index: usize) -> Result<(), Stop> {
        let record = self.records[index - 1].clone();
        let early =
            if self.board.makes(Mistake::ChainBeforeSegment) { Some(self.points(index, record[6])?) } else { None };
        let path = self.board.segment(k, record[3], record[4]).ok_or((23, index))?;
        let (order, last) = match early {
            Some(read) => read,
            None => self.points(index, record[6])?,
        };
        let named = if self.board.makes(Mistake::PointNamed) { last } else { index };
        let inner = &path[1..path.len().max(2) - 1];
        let points = order.iter().all(|&point| self.point(point));
        let shorter = points && self.board.shorter(&path, &order);
        if !shorter && self.board.makes(Mistake::ShorterBeforePoints) {
            return Err((24, named));
        }
        if !self.board.names(&order, inner) {
            return Err((23, named));
        }
        if !shorter {
            return Err((24, named));
        }
        Ok(())
    }
}
