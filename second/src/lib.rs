//! A second program for strike sheets, read from documents 01 and 02 alone.
//!
//! Names: a feasible pair is 01's standing pair; K is `EdgeSet`; a segment is Paper 10's stretch; a reason is
//! what Paper 6 tells of a pair.
//! `kit` holds the generator, the naive checker, brute force and the comparison.

pub mod bytes;
pub mod crossing;
pub mod desks;
pub mod edge_set;
pub mod instance;
pub mod intervals;
pub mod kit;
pub mod lengths;
pub mod listing;
pub mod marking;
pub mod marks;
pub mod packed;
pub mod page;
pub mod pairs;
pub mod program;
pub mod reasons;
pub mod refusal;
pub mod saving;
pub mod segment;
pub mod sentence;
pub mod sheet;
pub mod slip;
pub mod telling;
pub mod tour;
pub mod tsplib;
