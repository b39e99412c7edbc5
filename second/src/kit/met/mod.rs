//! What was met: counts of all that a comparison has to meet, and how they are read off a call.

pub mod coverage;
pub mod desks;
pub mod entered;
pub mod limits;
pub mod moved;
pub mod moves;
pub mod pages;
pub mod reasons;
pub mod rules;
pub mod savings;
pub mod segments;
pub mod sets;
pub mod slips;
pub mod texts;
