//! Savings: what is taken out less what is put in (02, Paper 5).

use crate::crossing::Crossing;
use crate::instance::Instance;
use crate::intervals::Intervals;
use crate::refusal::Refusal;
use crate::sheet::points;

type Edge = (u16, u16);

/// The exchange of pq and xy: "their sum less the larger of the two exchanges". pq and xy are compatible exactly when
/// it is at most 0.
pub fn exchange(l: &Intervals, (p, q): Edge, (x, y): Edge) -> i64 {
    let straight = l.put_in(p, x) + l.put_in(q, y);
    let crossed = l.put_in(p, y) + l.put_in(q, x);
    i64::from(l.taken_out(p, q) + l.taken_out(x, y) - straight.max(crossed))
}

/// Moving c from between x and y to between u and v: "old less new". Test 5 shuts a pair out exactly when it is above 0
/// for a point c whose two edges in K with the pair are xc and yc, and an edge uv of that set without c.
pub fn moving(l: &Intervals, c: u16, (x, y): Edge, (u, v): Edge) -> i64 {
    let old = l.taken_out(u, v) + l.taken_out(x, c) + l.taken_out(y, c);
    let new = l.put_in(x, y) + l.put_in(u, c) + l.put_in(v, c);
    i64::from(old - new)
}

/// 1, 2, 5; 11, an edge taken out is none. The lengths if all pass.
fn tests<'a>(n: u32, table: &'a [u32], taken_out: &[Edge]) -> Result<Intervals<'a>, Refusal> {
    let n = Instance::table_tests(n, table)?;
    if !taken_out.iter().all(|&(a, b)| points(n, a, b, &[])) {
        return Err(Refusal::PointField);
    }
    Ok(Intervals::exact(n, table))
}

/// The saving of exchanging pq and xy.
pub fn exchange_saving(n: u32, table: &[u32], [p, q, x, y]: [u16; 4]) -> Result<i64, Refusal> {
    let l = tests(n, table, &[(p, q), (x, y)])?;
    Ok(exchange(&l, (p, q), (x, y)))
}

/// The saving of moving c from between x and y to between u and v.
pub fn move_saving(n: u32, table: &[u32], [c, x, y, u, v]: [u16; 5]) -> Result<i64, Refusal> {
    let l = tests(n, table, &[(x, c), (y, c), (u, v)])?;
    Ok(moving(&l, c, (x, y), (u, v)))
}

/// The saving of the crossing of pq with centres r and s, whose other ends are x and y, and z and w.
pub fn crossing_saving(n: u32, table: &[u32], [p, q, r, s, x, y, z, w]: [u16; 8]) -> Result<i64, Refusal> {
    let l = tests(n, table, &[(p, q), (r, x), (s, w), (r, y), (s, z)])?;
    Ok(Crossing { p, q, r, s }.saving(&l, (x, y), (z, w)))
}
