//! The five tests and the crossing as 01 writes them, over two tables as Paper 11 says.

use super::mistake::Mistake;

pub type Edge = (usize, usize);

pub struct Board<'a> {
    pub n: usize,
    /// All edges in 01's order.
    edges: Vec<Edge>,
    /// "A low and a high length for each edge"; one table is both.
    low: &'a [u32],
    high: &'a [u32],
    /// The place of a-b at a × (n + 1) + b.
    places: Vec<usize>,
    pub mistake: Option<Mistake>,
}

pub fn all_edges(n: usize) -> Vec<Edge> {
    let mut edges = Vec::new();
    for a in 1..=n {
        for b in a + 1..=n {
            edges.push((a, b));
        }
    }
    edges
}

/// Marks with another mark for each 2.
pub fn pending_read_as(mark: u8, marks: &[u8]) -> Vec<u8> {
    marks.iter().map(|&m| if m == 2 { mark } else { m }).collect()
}

pub fn same(e: Edge, f: Edge) -> bool {
    e == f || e == (f.1, f.0)
}

pub fn has(k: &[Edge], e: Edge) -> bool {
    k.iter().any(|&f| same(e, f))
}

pub fn with(k: &[Edge], e: Edge) -> Vec<Edge> {
    let mut more = k.to_vec();
    if !has(k, e) {
        more.push(e);
    }
    more
}

fn ends_at(k: &[Edge], v: usize) -> impl Iterator<Item = usize> + '_ {
    k.iter().filter(move |e| e.0 == v || e.1 == v).map(move |e| if e.0 == v { e.1 } else { e.0 })
}

pub fn other_ends(k: &[Edge], v: usize) -> Vec<usize> {
    ends_at(k, v).collect()
}

/// The other ends of w's edges, if it has exactly two.
fn two_ends(k: &[Edge], w: usize) -> Option<Edge> {
    let mut ends = ends_at(k, w);
    let two = (ends.next()?, ends.next()?);
    ends.next().is_none().then_some(two)
}

/// "x, y swapped or not, z, w swapped or not."
pub fn labellings((x, y): Edge, (z, w): Edge) -> [(Edge, Edge); 4] {
    [((x, y), (z, w)), ((x, y), (w, z)), ((y, x), (z, w)), ((y, x), (w, z))]
}

/// Whether some cycle through `start` has fewer than `limit` edges; `path` begins with `start`.
pub fn short_cycle_from(k: &[Edge], path: &mut Vec<usize>, limit: usize) -> bool {
    let (start, at) = (path[0], path[path.len() - 1]);
    for next in other_ends(k, at) {
        if next == start && path.len() >= 3 && path.len() < limit {
            return true;
        }
        if !path.contains(&next) {
            path.push(next);
            if short_cycle_from(k, path, limit) {
                return true;
            }
            path.pop();
        }
    }
    false
}

pub fn short_cycle(k: &[Edge], limit: usize) -> bool {
    k.iter().any(|e| short_cycle_from(k, &mut vec![e.0], limit))
}

impl<'a> Board<'a> {
    pub fn new(n: usize, table: &'a [u32], mistake: Option<Mistake>) -> Self {
        Board::between(n, table, table, mistake)
    }

    pub fn between(n: usize, low: &'a [u32], high: &'a [u32], mistake: Option<Mistake>) -> Self {
        let edges = all_edges(n);
        let mut places = vec![usize::MAX; (n + 1) * (n + 1)];
        for (place, &(a, b)) in edges.iter().enumerate() {
            places[a * (n + 1) + b] = place;
            places[b * (n + 1) + a] = place;
        }
        Board { n, edges, low, high, places, mistake }
    }

    /// Whether this mistake is built in.
    pub fn makes(&self, mistake: Mistake) -> bool {
        self.mistake == Some(mistake)
    }

    pub fn place(&self, a: usize, b: usize) -> usize {
        self.places[a * (self.n + 1) + b]
    }

    fn l(&self, table: &[u32], a: usize, b: usize) -> i64 {
        if a == b {
            return 0;
        }
        i64::from(table[self.place(a, b)])
    }

    /// "Whatever a rule takes out counts low."
    pub fn out(&self, a: usize, b: usize) -> i64 {
        self.l(if self.makes(Mistake::OutHigh) { self.high } else { self.low }, a, b)
    }

    /// "Whatever it puts in counts high."
    pub fn put(&self, a: usize, b: usize) -> i64 {
        self.l(if self.makes(Mistake::PutLow) { self.low } else { self.high }, a, b)
    }

    pub fn compatible(&self, (p, q): Edge, (x, y): Edge) -> bool {
        let straight = self.put(p, x) + self.put(q, y);
        let crossed = self.put(p, y) + self.put(q, x);
        let larger = if self.makes(Mistake::OneExchange) { straight } else { straight.max(crossed) };
        larger >= self.out(p, q) + self.out(x, y)
    }

    /// Whether "moving the point between the edge's ends makes the sum smaller": w, from between s and t, and the edge
    /// uv.
    pub fn moves_between(&self, (u, v): Edge, w: usize, (s, t): Edge, ties: bool) -> bool {
        let new = self.put(s, t) + self.put(u, w) + self.put(v, w);
        let old = self.out(u, v) + self.out(s, w) + self.out(t, w);
        let stays = if self.makes(Mistake::BothCountsOnce) { self.stays_between((u, v), w, (s, t)) } else { 0 };
        new - stays < old || (ties && new == old)
    }

    /// What a mistake takes off: an edge that is taken out and put in again, sw where s is u or v, tw where t is.
    fn stays_between(&self, (u, v): Edge, w: usize, (s, t): Edge) -> i64 {
        [s, t].iter().filter(|&&e| e == u || e == v).map(|&e| self.put(e, w) - self.out(e, w)).sum()
    }

    /// Whether a mistake forgets to move w.
    fn stays_by_mistake(&self, w: usize, [c, x, y]: [usize; 3]) -> bool {
        match self.mistake {
            Some(Mistake::SplitMovedOnly) => w != c,
            Some(Mistake::LowerStays) => w == x,
            Some(Mistake::HigherStays) => w == y,
            Some(Mistake::OthersStay) => ![c, x, y].contains(&w),
            _ => false,
        }
    }

    /// Whether uv is one of "each edge of that set without the point"; s and t are the neighbours of w.
    fn without(&self, (u, v): Edge, w: usize, (s, t): Edge) -> bool {
        match self.mistake {
            Some(Mistake::EdgeAtPoint) => !same((u, v), (w, s)),
            Some(Mistake::TouchingLeft) => ![w, s, t].contains(&u) && ![w, s, t].contains(&v),
            _ => u != w && v != w,
        }
    }

    /// Test 5 for w, "each point that has two edges in K with the pair added": x and y at c, K being the first of the
    /// edges.
    fn moves(&self, more: &[Edge], k: usize, w: usize, cxy: [usize; 3]) -> bool {
        let Some(st) = two_ends(more, w) else { return false };
        let ties = match self.mistake {
            Some(Mistake::EqualShutsOut) => true,
            Some(Mistake::SettledTies) => w != cxy[0],
            _ => false,
        };
        let edges = if self.makes(Mistake::PairsEdgesLeft) { &more[..k] } else { more };
        let moves = |&uv: &Edge| self.without(uv, w, st) && self.moves_between(uv, w, st, ties);
        !self.stays_by_mistake(w, cxy) && edges.iter().any(moves)
    }

    pub fn stands(&self, marks: &[u8], k: &[Edge], c: usize, x: usize, y: usize) -> bool {
        let open = |e: Edge| marks[self.place(e.0, e.1)] == 1;
        if !(open((c, x)) && open((c, y))) {
            return false;
        }
        let compared = if self.makes(Mistake::FirstEdgeOnly) { &k[..1] } else { k };
        if !compared.iter().all(|&e| self.compatible(e, (c, x)) && self.compatible(e, (c, y))) {
            return false;
        }
        let more = with(&with(k, (c, x)), (c, y));
        let limit = if self.makes(Mistake::FullCycleShort) { self.n + 1 } else { self.n };
        let mut points = more.iter().rev().flat_map(|e| [e.0, e.1]);
        points.clone().all(|v| ends_at(&more, v).count() < 3)
            && !points.any(|w| self.moves(&more, k.len(), w, [c, x, y]))
            && !short_cycle(&more, limit)
    }

    pub fn standing(&self, marks: &[u8], k: &[Edge], c: usize) -> Vec<Edge> {
        let both_not_c = |e: &&Edge| e.0 != c && e.1 != c;
        self.edges.iter().filter(both_not_c).filter(|e| self.stands(marks, k, c, e.0, e.1)).copied().collect()
    }

    /// What the two moves of a labelling save.
    pub fn two_savings(&self, [p, q, r, s]: [usize; 4], (x, y): Edge, (z, w): Edge) -> [i64; 2] {
        let put = |a, b| if self.makes(Mistake::CrossingLow) { self.out(a, b) } else { self.put(a, b) };
        let first = self.out(p, q) + self.out(r, x) + self.out(s, w) - put(r, s) - put(p, x) - put(q, w);
        let second = self.out(p, q) + self.out(r, y) + self.out(s, z) - put(r, s) - put(p, z) - put(q, y);
        [first, second]
    }

    pub fn labelling_saves(&self, pqrs: [usize; 4], xy: Edge, zw: Edge) -> bool {
        let [first, second] = self.two_savings(pqrs, xy, zw);
        match self.mistake {
            Some(Mistake::EqualSaves) => first >= 0 && second >= 0,
            Some(Mistake::OneMove) => first > 0,
            _ => first > 0 && second > 0,
        }
    }

    /// 0, 15 or 16 for a crossing.
    pub fn crossing(&self, k: &[Edge], pqrs: [usize; 4]) -> u64 {
        let [p, q, r, s] = pqrs;
        let (xy, zw) = (other_ends(k, r), other_ends(k, s));
        let names_edge = has(k, (p, q));
        let centres = r != s && r != p && r != q && s != p && s != q;
        if !names_edge || !centres || xy.len() != 2 || zw.len() != 2 || has(k, (r, s)) {
            return 15;
        }
        let labellings = labellings((xy[0], xy[1]), (zw[0], zw[1]));
        let tried = if self.makes(Mistake::OneLabelling) { 1 } else { 4 };
        if labellings[..tried].iter().any(|&(xy, zw)| self.labelling_saves(pqrs, xy, zw)) {
            0
        } else {
            16
        }
    }

    fn open_edges(&self, marks: &[u8], v: usize) -> usize {
        self.edges.iter().zip(marks).filter(|&(e, &mark)| mark == 1 && (e.0 == v || e.1 == v)).count()
    }

    /// The length of the shortest tour that begins with `path`, from its last point on.
    fn shortest_rest(&self, table: &[u32], path: &[usize]) -> i64 {
        let at = path[path.len() - 1];
        let next = (1..=self.n).filter(|v| !path.contains(v));
        let rest = next.map(|v| self.l(table, at, v) + self.shortest_rest(table, &[path, &[v]].concat()));
        rest.min().unwrap_or(self.l(table, at, path[0]))
    }

    /// Whether no shortest tour over a table has ab; up to nine points.
    fn in_no_shortest(&self, table: &[u32], (a, b): Edge) -> bool {
        self.n <= 9 && self.l(table, a, b) + self.shortest_rest(table, &[a, b]) > self.shortest_rest(table, &[a])
    }

    /// Whether a mistake accepts a line for ab that has no cases.
    pub fn waved_on(&self, marks: &[u8], (a, b): Edge) -> bool {
        match self.mistake {
            Some(Mistake::LastEdges) => [a, b].iter().any(|&v| self.open_edges(marks, v) <= 2),
            Some(Mistake::ShortestOnly) => self.in_no_shortest(self.low, (a, b)),
            Some(Mistake::EndsOnly) => {
                self.low != self.high && [self.low, self.high].iter().all(|table| self.in_no_shortest(table, (a, b)))
            }
            _ => false,
        }
    }
}
