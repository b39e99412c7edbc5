//! Edge places, the five distances, *measure* and table look-up (01, Points, lengths, marks; 02, Paper 2).

use crate::instance::Instance;
use crate::refusal::Refusal;

/// "There are n(n − 1)/2 of them."
pub fn edge_count(n: u16) -> usize {
    let n = usize::from(n);
    n * (n - 1) / 2
}

/// The order of edges: 1-2, 1-3, .., 1-n, 2-3, ..
pub struct EdgeOrder {
    pub n: u16,
    /// The place of a-b with a < b is `rows[a] + b`, modulo 2^32.
    rows: [u32; Instance::SLOTS],
}

impl EdgeOrder {
    pub fn new(n: u16) -> Self {
        let mut rows = [0u32; Instance::SLOTS];
        let mut first = 0u32;
        for a in 1..=u32::from(n) {
            rows[a as usize] = first.wrapping_sub(a + 1);
            first += u32::from(n) - a;
        }
        EdgeOrder { n, rows }
    }

    /// The place of a-b for a < b.
    #[inline]
    pub fn rising_place(&self, a: u16, b: u16) -> usize {
        self.rows[usize::from(a)].wrapping_add(u32::from(b)) as usize
    }

    /// The place of a-b, given in either order.
    #[inline]
    pub fn place(&self, a: u16, b: u16) -> usize {
        if a < b {
            self.rising_place(a, b)
        } else {
            self.rising_place(b, a)
        }
    }
}

/// Lengths between points, read from a table that has passed tests 2 and 5.
pub struct Lengths<'a> {
    pub order: EdgeOrder,
    pub table: &'a [u32],
}

impl<'a> Lengths<'a> {
    pub fn new(n: u16, table: &'a [u32]) -> Self {
        Lengths { order: EdgeOrder::new(n), table }
    }

    /// l(ab); "the length from a point to itself is 0".
    #[inline]
    pub fn between(&self, a: u16, b: u16) -> i32 {
        if a == b {
            0
        } else {
            self.table[self.order.place(a, b)] as i32
        }
    }
}

/// The five rules for a length from the two coordinate differences.
#[derive(Clone, Copy, Debug, PartialEq, Eq)]
pub enum Rule {
    Euc2d,
    Ceil2d,
    Att,
    Man2d,
    Max2d,
}

impl Rule {
    /// Test 3: rule 1 to 5.
    pub fn read(number: u32) -> Result<Rule, Refusal> {
        match number {
            1 => Ok(Rule::Euc2d),
            2 => Ok(Rule::Ceil2d),
            3 => Ok(Rule::Att),
            4 => Ok(Rule::Man2d),
            5 => Ok(Rule::Max2d),
            _ => Err(Refusal::Rule),
        }
    }
}

/// S, the sum of the two squared differences.
fn squares(dx: u32, dy: u32) -> u64 {
    let (dx, dy) = (u64::from(dx), u64::from(dy));
    dx * dx + dy * dy
}

/// With r² ≤ S < (r + 1)²: r where 4S < (2r + 1)², that is S ≤ r² + r, otherwise r + 1.
pub fn euc_2d(s: u64) -> u32 {
    let root = s.isqrt();
    (if s <= root * root + root { root } else { root + 1 }) as u32
}

/// "The least d with d² ≥ S". With r² ≤ S < (r + 1)²: r where r² ≥ S, otherwise r + 1.
pub fn ceil_2d(s: u64) -> u32 {
    let root = s.isqrt();
    (if s <= root * root { root } else { root + 1 }) as u32
}

/// "The least d with 10d² ≥ S", that is d² ≥ S/10 rounded up.
pub fn att(s: u64) -> u32 {
    ceil_2d(s.div_ceil(10))
}

/// The "sum of the two differences".
pub fn man_2d(dx: u32, dy: u32) -> u32 {
    dx + dy
}

/// "The larger" of the two differences.
pub fn max_2d(dx: u32, dy: u32) -> u32 {
    dx.max(dy)
}

/// *Measure*: 1, 2, 3, 4; on a refusal the table keeps its numbers.
pub fn measure(n: u32, rule: u32, coordinates: &[u32], table: &mut [u32]) -> Result<(), Refusal> {
    let n = Instance::point_count(n)?;
    if coordinates.len() != 2 * usize::from(n) || table.len() != edge_count(n) {
        return Err(Refusal::TableSize);
    }
    let rule = Rule::read(rule)?;
    if coordinates.iter().any(|&c| c > Instance::MOST_COORDINATE) {
        return Err(Refusal::Coordinate);
    }
    match rule {
        Rule::Euc2d => fill(coordinates, table, |dx, dy| euc_2d(squares(dx, dy))),
        Rule::Ceil2d => fill(coordinates, table, |dx, dy| ceil_2d(squares(dx, dy))),
        Rule::Att => fill(coordinates, table, |dx, dy| att(squares(dx, dy))),
        Rule::Man2d => fill(coordinates, table, man_2d),
        Rule::Max2d => fill(coordinates, table, max_2d),
    }
    Ok(())
}

/// Writes the lengths in the order of edges. Each rule has its own copy of the loop, with no branch on the rule inside.
fn fill(coordinates: &[u32], table: &mut [u32], length: impl Fn(u32, u32) -> u32) {
    let mut points = coordinates.chunks_exact(2);
    let mut places = table.iter_mut();
    while let Some(a) = points.next() {
        for (b, place) in points.clone().zip(&mut places) {
            *place = length(a[0].abs_diff(b[0]), a[1].abs_diff(b[1]));
        }
    }
}
