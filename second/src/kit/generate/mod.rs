//! What is made to be compared: boards, sets of marks, sheets, texts, slips, halls, calls, and the inputs of the
//! benchmark.

pub mod between;
pub mod boards;
pub mod drafts;
pub mod halls;
pub mod limits;
pub mod made_paths;
pub mod orders;
pub mod rng;
pub mod savings;
pub mod search;
pub mod segments;
pub mod sets;
pub mod sheets;
pub mod six_points;
pub mod slips;
pub mod tellings;
pub mod texts;
pub mod workloads;
