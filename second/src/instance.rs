//! The limits of an instance and the tests that operations share (1, 2, 5, 25, 6).

use crate::lengths::edge_count;
use crate::refusal::Refusal;

/// 01, Points, lengths, marks.
pub struct Instance;

impl Instance {
    pub const LEAST_POINTS: u32 = 4;
    pub const MOST_POINTS: u32 = 180;
    pub const MOST_COORDINATE: u32 = 1_000_000;
    pub const MOST_LENGTH: u32 = 2_000_000;
    /// Room for one entry a point, numbered from 1.
    pub const SLOTS: usize = Self::MOST_POINTS as usize + 1;

    /// Test 1: n is 4 to 180.
    pub fn point_count(n: u32) -> Result<u16, Refusal> {
        if (Self::LEAST_POINTS..=Self::MOST_POINTS).contains(&n) {
            Ok(n as u16)
        } else {
            Err(Refusal::PointCount)
        }
    }

    /// Tests 1, 2 and 5 of one table. Answers n.
    pub fn table_tests(n: u32, table: &[u32]) -> Result<u16, Refusal> {
        let n = Self::point_count(n)?;
        table_size(n, table)?;
        table_entries(table)?;
        Ok(n)
    }

    /// Tests 1, 2, 5 and 25 of two tables: "tests 2 and 5 read both", then no low length is above its high one. Answers
    /// n.
    pub fn limit_tests(n: u32, low: &[u32], high: &[u32]) -> Result<u16, Refusal> {
        let n = Self::point_count(n)?;
        table_size(n, low)?;
        table_size(n, high)?;
        table_entries(low)?;
        table_entries(high)?;
        let above = low.iter().zip(high).fold(false, |above, (low, high)| above | (low > high));
        demand(!above, Refusal::LowAboveHigh)?;
        Ok(n)
    }
}

/// Test 2.
fn table_size(n: u16, table: &[u32]) -> Result<(), Refusal> {
    demand(table.len() == edge_count(n), Refusal::TableSize)
}

/// Test 5.
fn table_entries(table: &[u32]) -> Result<(), Refusal> {
    let most = table.iter().fold(0, |most, &l| most.max(l));
    demand(most <= Instance::MOST_LENGTH, Refusal::TableEntry)
}

fn demand(holds: bool, refusal: Refusal) -> Result<(), Refusal> {
    if holds {
        Ok(())
    } else {
        Err(refusal)
    }
}
