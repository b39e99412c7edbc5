//! K, the edges assumed to lie in a tour (01, Standing pairs).

use crate::instance::Instance;
use crate::sheet::Sheet;

/// K with the ends of its edges at each point. No point has three edges.
#[derive(Clone)]
pub struct EdgeSet {
    edges: [(u16, u16); EdgeSet::MOST_EDGES],
    count: usize,
    ends: [[u16; 2]; Instance::SLOTS],
    degree: [u8; Instance::SLOTS],
}

impl EdgeSet {
    /// The line's edge, and two for each of the splits one inside another.
    pub const MOST_EDGES: usize = 1 + 2 * Sheet::MOST_SPLITS;

    pub fn empty() -> Self {
        EdgeSet {
            edges: [(0, 0); EdgeSet::MOST_EDGES],
            count: 0,
            ends: [[0; 2]; Instance::SLOTS],
            degree: [0; Instance::SLOTS],
        }
    }

    /// K = {ab}.
    pub fn one(a: u16, b: u16) -> Self {
        let mut known = EdgeSet::empty();
        known.add(a, b);
        known
    }

    pub fn edges(&self) -> &[(u16, u16)] {
        &self.edges[..self.count]
    }

    /// The other ends of the edges of K at v.
    pub fn ends(&self, v: u16) -> &[u16] {
        &self.ends[usize::from(v)][..self.degree(v)]
    }

    pub fn degree(&self, v: u16) -> usize {
        usize::from(self.degree[usize::from(v)])
    }

    /// The points with two edges in K, each with the other ends of these.
    pub fn settled(&self) -> impl Iterator<Item = (u16, u16, u16)> + '_ {
        let ends = self.edges().iter().flat_map(|&(u, v)| [(u, v), (v, u)]);
        ends.filter_map(|(w, t)| match *self.ends(w) {
            [s, second] if second == t => Some((w, s, t)),
            _ => None,
        })
    }

    pub fn contains(&self, u: u16, v: u16) -> bool {
        self.ends(u).contains(&v)
    }

    /// Adds uv if K has not got it; u and v have room for it.
    pub fn add(&mut self, u: u16, v: u16) {
        if !self.contains(u, v) {
            self.edges[self.count] = (u, v);
            self.count += 1;
            self.add_end(u, v);
            self.add_end(v, u);
        }
    }

    fn add_end(&mut self, u: u16, v: u16) {
        let degree = &mut self.degree[usize::from(u)];
        self.ends[usize::from(u)][usize::from(*degree)] = v;
        *degree += 1;
    }

    /// "A case adds its pair's two edges to K." Answers the count before, for `cut_back`.
    pub fn add_pair(&mut self, c: u16, (x, y): (u16, u16)) -> usize {
        let before = self.count;
        self.add(c, x);
        self.add(c, y);
        before
    }

    /// Takes the last added edges away until `count` are left.
    pub fn cut_back(&mut self, count: usize) {
        while self.count > count {
            self.count -= 1;
            let (u, v) = self.edges[self.count];
            self.degree[usize::from(u)] -= 1;
            self.degree[usize::from(v)] -= 1;
        }
    }

    /// The other end of K's path from v and the path's number of edges; v has exactly one edge.
    pub fn far_end(&self, v: u16) -> (u16, usize) {
        let (mut before, mut at, mut edges) = (v, self.ends(v)[0], 1);
        while let &[one, other] = self.ends(at) {
            let next = if one == before { other } else { one };
            (before, at) = (at, next);
            edges += 1;
        }
        (at, edges)
    }
}
