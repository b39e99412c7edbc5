//! The comparison kit: what is generated and damaged, the programs, the oracles, what was met, and the comparison.

pub mod compare;
pub mod damage;
pub mod generate;
mod listed;
pub mod met;
pub mod oracle;
pub mod programs;
