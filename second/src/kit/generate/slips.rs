//! Slips to be shown: random ones, and ones that differ from another in a part.

use crate::bytes::{slip_number, slip_of};
use crate::kit::generate::rng::Rng;
use crate::slip::Slip;

/// A slip, and what its number has above it.
fn number(slip: Slip, above: u64) -> u64 {
    slip_number(slip) | above << 41
}

fn refusal(rng: &mut Rng) -> u8 {
    if rng.chance(70) {
        rng.pick(&[0, 0, 1, 7, 14, 22, 25, 128, 254, 255])
    } else {
        rng.below(256) as u8
    }
}

fn sixteen(rng: &mut Rng) -> u16 {
    if rng.chance(70) {
        rng.pick(&[0, 1, 2, 255, 256, 257, 4_000, 65_535])
    } else {
        rng.below(65_536) as u16
    }
}

fn above(rng: &mut Rng) -> u64 {
    let any = rng.word() >> 41;
    rng.pick(&[0, 0, 1, (1 << 23) - 1, any])
}

/// Any number: every one is a slip.
pub fn random(rng: &mut Rng) -> u64 {
    let slip = Slip { refusal: refusal(rng), record: sixteen(rng), lines: sixteen(rng), released: rng.chance(30) };
    let above = above(rng);
    number(slip, above)
}

/// The same, but for some of its parts.
pub fn near(rng: &mut Rng, number_of: u64) -> u64 {
    let mut slip = slip_of(number_of);
    let mut rest = number_of >> 41;
    for _ in 0..rng.between(1, 2) {
        match rng.below(6) {
            0 => slip.refusal = refusal(rng),
            1 => slip.record = sixteen(rng),
            2 => slip.lines = sixteen(rng),
            3 => slip.lines = slip.lines.rotate_left(8),
            4 => slip.released = !slip.released,
            _ => rest = above(rng),
        }
    }
    number(slip, rest)
}
