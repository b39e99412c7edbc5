//! Which rules a measuring operation met, on which points, and where it refused them.

use std::fmt;

use crate::bytes::entries;
use crate::instance::Instance;

/// TSPLIB's names of the rules 1 to 5.
const RULES: [&str; 5] = ["EUC_2D", "CEIL_2D", "ATT", "MAN_2D", "MAX_2D"];

/// Numbers at which refusal 3 has to be met: beside 1 to 5, and the largest.
const REFUSED: [u32; 3] = [0, 6, u32::MAX];

#[derive(Clone, Default)]
pub struct RulesMet {
    /// Measured boards by rule.
    measured: [u64; RULES.len()],
    /// Those with the longest diagonal that there is.
    corners: [u64; RULES.len()],
    /// Refusals by number.
    refused: [u64; REFUSED.len()],
}

impl RulesMet {
    /// What measuring the points of these bytes by a rule came to: a refusal number, or 0.
    pub fn count(&mut self, number: u64, rule: u32, coordinates: &[u8]) {
        match number {
            0 => self.measured(rule as usize - 1, &entries(coordinates)),
            3 => self.refused(rule),
            _ => {}
        }
    }

    fn measured(&mut self, place: usize, coordinates: &[u32]) {
        self.measured[place] += 1;
        self.corners[place] += u64::from(opposite_corners(coordinates));
    }

    fn refused(&mut self, rule: u32) {
        if let Some(place) = REFUSED.iter().position(|&number| number == rule) {
            self.refused[place] += 1;
        }
    }

    /// What was never met.
    pub fn missing(&self) -> Vec<String> {
        let rules = RULES.iter().zip(self.measured).filter(|&(_, times)| times == 0);
        let corners = RULES.iter().zip(self.corners).filter(|&(_, times)| times == 0);
        let refused = REFUSED.iter().zip(self.refused).filter(|&(_, times)| times == 0);
        let mut missing: Vec<String> = rules.map(|(name, _)| format!("{name} measured")).collect();
        missing.extend(corners.map(|(name, _)| format!("{name} measured with opposite corners of the largest square")));
        missing.extend(refused.map(|(number, _)| format!("rule {number} refused")));
        missing
    }
}

/// Whether the points have opposite corners of the largest square, and so 0 and 1,000,000 on both axes.
fn opposite_corners(coordinates: &[u32]) -> bool {
    let has = |x, y| coordinates.chunks_exact(2).any(|point| point == [x, y]);
    let most = Instance::MOST_COORDINATE;
    has(0, 0) && has(most, most) || has(0, most) && has(most, 0)
}

impl fmt::Display for RulesMet {
    fn fmt(&self, f: &mut fmt::Formatter) -> fmt::Result {
        write!(f, "boards by rule (with opposite corners of the largest square):")?;
        for ((name, measured), corners) in RULES.iter().zip(self.measured).zip(self.corners) {
            write!(f, " {name}: {measured} ({corners})")?;
        }
        write!(f, "; rules refused:")?;
        for (number, refused) in REFUSED.iter().zip(self.refused) {
            write!(f, " {number}: {refused}")?;
        }
        Ok(())
    }
}
