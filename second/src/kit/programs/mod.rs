//! The programs that are compared: what each answers, the naive one, Revosti, and guards around what is lent.

pub mod checker;
pub mod guarded;
pub mod naive;
#[cfg(feature = "revosti")]
pub mod revosti;
