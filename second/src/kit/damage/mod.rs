//! What is done to them on purpose: faults of calls, sheets, sets, tables and texts, each with what is due.

pub mod limits;
pub mod segments;
pub mod sets;
pub mod spoil;
pub mod texts;
