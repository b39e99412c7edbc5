//! TSPLIB texts read into a table (02, Paper 1).

pub mod grammar;
mod lines;

use crate::instance::Instance;
use crate::lengths::{edge_count, measure};
use crate::refusal::Refusal;
use grammar::{Body, FaultyLine};

/// A refusal with its line, 0 but for 19.
#[derive(Clone, Copy, Debug, PartialEq, Eq)]
pub struct TextFault {
    pub refusal: Refusal,
    pub line: u64,
}

impl From<FaultyLine> for TextFault {
    fn from(FaultyLine(line): FaultyLine) -> TextFault {
        TextFault { refusal: Refusal::Text, line }
    }
}

impl From<Refusal> for TextFault {
    fn from(refusal: Refusal) -> TextFault {
        TextFault { refusal, line: 0 }
    }
}

/// *Read a TSPLIB text*: 19; then *measure*'s 1, 2, 4, or 1, 2, 5 of the weights. Answers n; on a refusal the table
/// keeps its numbers.
pub fn read_tsplib(text: &[u8], table: &mut [u32]) -> Result<u32, TextFault> {
    let instance = grammar::text(text)?;
    match instance.body {
        Body::Coordinates { rule, coordinates } => measure(instance.n, rule, &coordinates, table)?,
        Body::Weights(weights) => copy(instance.n, &weights, table)?,
    }
    Ok(instance.n)
}

/// Tests 1, 2 and 5, then the weights as they are.
fn copy(n: u32, weights: &[u32], table: &mut [u32]) -> Result<(), Refusal> {
    if table.len() != edge_count(Instance::point_count(n)?) {
        return Err(Refusal::TableSize);
    }
    Instance::table_tests(n, weights)?;
    table.copy_from_slice(weights);
    Ok(())
}

/// The number of points of a text, or 19; no other test.
pub fn tsplib_points(text: &[u8]) -> Result<u32, TextFault> {
    Ok(grammar::text(text)?.n)
}
