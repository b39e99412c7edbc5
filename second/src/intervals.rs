//! Lengths known within limits: a low and a high one for each edge (02, Paper 11).

use crate::lengths::EdgeOrder;

/// Two tables that have passed tests 2, 5 and 25, as the rules read them; where lengths are exact, one table twice.
pub struct Intervals<'a> {
    pub order: EdgeOrder,
    low: &'a [u32],
    high: &'a [u32],
}

impl<'a> Intervals<'a> {
    pub fn new(n: u16, low: &'a [u32], high: &'a [u32]) -> Self {
        Intervals { order: EdgeOrder::new(n), low, high }
    }

    /// One table.
    pub fn exact(n: u16, table: &'a [u32]) -> Self {
        Intervals::new(n, table, table)
    }

    /// l(ab) where it is taken out: "whatever a rule takes out counts low". From a point to itself it is 0.
    #[inline]
    pub fn taken_out(&self, a: u16, b: u16) -> i32 {
        self.length(self.low, a, b)
    }

    /// l(ab) where it is put in: "whatever it puts in counts high".
    #[inline]
    pub fn put_in(&self, a: u16, b: u16) -> i32 {
        self.length(self.high, a, b)
    }

    #[inline]
    fn length(&self, table: &[u32], a: u16, b: u16) -> i32 {
        if a == b {
            0
        } else {
            table[self.order.place(a, b)] as i32
        }
    }

    /// What an edge counts where it is taken out, by its place.
    #[inline]
    pub fn taken_out_at(&self, place: usize) -> i32 {
        self.low[place] as i32
    }

    /// What x-(x + 1), .., x-n count where they are put in; x is below n.
    #[inline]
    pub fn put_in_row(&self, x: u16) -> &'a [u32] {
        let start = self.order.rising_place(x, x + 1);
        &self.high[start..start + usize::from(self.order.n - x)]
    }
}
