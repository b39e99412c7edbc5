//! Savings, sentence by sentence from Paper 5.

use super::mistake::Mistake;
use super::rules::{labellings, Board, Edge};
use super::{edge_count, table_of, table_tests, Naive};

impl Board<'_> {
    pub fn sum(&self, edges: &[Edge]) -> i64 {
        edges.iter().map(|&(a, b)| self.out(a, b)).sum()
    }

    /// "For two edges, their sum less the larger of the two exchanges."
    pub fn exchange_saving(&self, (p, q): Edge, (x, y): Edge) -> i64 {
        let mut exchanges = [self.sum(&[(p, x), (q, y)]), self.sum(&[(p, y), (q, x)])];
        exchanges.sort();
        let larger = if self.makes(Mistake::SmallerExchange) { exchanges[0] } else { exchanges[1] };
        self.sum(&[(p, q), (x, y)]) - larger
    }

    /// "For moving a point, old less new." Before, c is between x and y, after that between u and v.
    pub fn move_saving(&self, c: usize, (x, y): Edge, (u, v): Edge) -> i64 {
        let old = self.sum(&[(x, c), (c, y), (u, v)]);
        let new = self.sum(&[(x, y), (u, c), (c, v)]);
        old - new
    }

    /// "For a crossing, the smaller of its two savings, and of four labellings the best."
    pub fn crossing_saving(&self, pqrs: [usize; 4], xy: Edge, zw: Edge) -> i64 {
        let mut savings = labellings(xy, zw).map(|(xy, zw)| {
            let [one, other] = self.two_savings(pqrs, xy, zw);
            let larger = self.makes(Mistake::LargerMove);
            if (one < other) != larger {
                one
            } else {
                other
            }
        });
        if !self.makes(Mistake::FirstLabelling) {
            savings.sort_by_key(|saving| -saving);
        }
        savings[0]
    }
}

impl Naive {
    /// 1, 2, 5; 11, an edge taken out is none; then what `saving` answers on the board, times 65,536.
    fn saving(&self, n: u32, table: &[u8], out: &[[u16; 2]], saving: impl Fn(&Board) -> i64) -> Result<i64, u64> {
        let (table, whole) = table_of(table);
        let point = |v: u16| v != 0 && u32::from(v) <= n;
        let edge = |&[a, b]: &[u16; 2]| point(a) && point(b) && (a != b || self.makes(Mistake::EndsTheSame));
        let edges = out.iter().all(edge);
        if self.makes(Mistake::EdgesBeforeLengths) && !edges {
            return edge_count(n).and(Err(11));
        }
        table_tests(self.mistake, n, &table, whole)?;
        if !edges {
            return Err(11);
        }
        let saved = saving(&Board::new(n as usize, &table, self.mistake));
        Ok(65_536 * if self.makes(Mistake::LossIsNothing) { saved.max(0) } else { saved })
    }

    pub fn exchange(&self, n: u32, table: &[u8], pqxy: [u16; 4]) -> Result<i64, u64> {
        let [p, q, x, y] = pqxy;
        self.saving(n, table, &[[p, q], [x, y]], |board| {
            let [p, q, x, y] = pqxy.map(usize::from);
            board.exchange_saving((p, q), (x, y))
        })
    }

    pub fn moved(&self, n: u32, table: &[u8], cxyuv: [u16; 5]) -> Result<i64, u64> {
        let [c, x, y, u, v] = cxyuv;
        self.saving(n, table, &[[x, c], [y, c], [u, v]], |board| {
            let [c, x, y, u, v] = cxyuv.map(usize::from);
            board.move_saving(c, (x, y), (u, v))
        })
    }

    pub fn crossed(&self, n: u32, table: &[u8], pqrsxyzw: [u16; 8]) -> Result<i64, u64> {
        let [p, q, r, s, x, y, z, w] = pqrsxyzw;
        self.saving(n, table, &[[p, q], [r, x], [s, w], [r, y], [s, z]], |board| {
            let [p, q, r, s, x, y, z, w] = pqrsxyzw.map(usize::from);
            board.crossing_saving([p, q, r, s], (x, y), (z, w))
        })
    }
}
