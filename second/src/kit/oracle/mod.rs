//! What is known without a checker: shortest and 3-opt tours, what marks keep, completions of texts, due reasons.

pub mod brute;
pub mod completions;
pub mod kept;
pub mod reasons;
pub mod three_opt;
