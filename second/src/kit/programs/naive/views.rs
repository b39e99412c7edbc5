//! What examiner and candidate see of a slip, sentence by sentence from Paper 13.

use super::mistake::Mistake;
use super::Naive;

/// Bit 40.
const RELEASED: u64 = 1_099_511_627_776;

/// Who looks at a slip.
#[derive(Clone, Copy, PartialEq, Eq)]
pub enum Viewer {
    Examiner,
    Candidate,
}

/// Refusal number, record, lines and released, digit by digit of bases 256, 65,536, 65,536 and 2.
fn values(slip: u64) -> [u64; 4] {
    let mut rest = slip;
    [256, 65_536, 65_536, 2].map(|base| {
        let digit = rest % base;
        rest /= base;
        digit
    })
}

impl Naive {
    /// "Releasing changes nothing else."
    pub fn released(&self, slip: u64) -> u64 {
        let [_, _, _, released] = values(slip);
        let slip = if self.makes(Mistake::ReleaseCutsAbove) { slip % (2 * RELEASED) } else { slip };
        match released {
            0 => slip + RELEASED,
            _ if self.makes(Mistake::ReleaseTakenBack) => slip - RELEASED,
            _ => slip,
        }
    }

    /// The six bytes, one after the other, each as a number.
    fn seen(&self, viewer: Viewer, slip: u64) -> Vec<u64> {
        let [mut refusal, mut record, mut lines, released] = values(slip);
        let hides = released == 0 || self.makes(Mistake::HiddenAfterRelease);
        if viewer == Viewer::Candidate && hides {
            if refusal != 0 && !self.makes(Mistake::NumberShownEarly) {
                refusal = 255;
            }
            if !self.makes(Mistake::RecordShownEarly) {
                record = 0;
            }
            if self.makes(Mistake::LinesHidden) {
                lines = 0;
            }
        }
        vec![refusal, released, record % 256, record / 256, lines % 256, lines / 256]
    }

    /// The refusal number or 0: 22, fewer than six bytes.
    pub fn view(&self, viewer: Viewer, slip: u64, bytes: &mut [u8]) -> u64 {
        let seen = self.seen(viewer, slip);
        if bytes.len() < seen.len() {
            if self.makes(Mistake::ShortViewWritten) {
                bytes.iter_mut().zip(seen).for_each(|(place, byte)| *place = byte as u8);
            }
            return 22;
        }
        if self.makes(Mistake::BytesPastCleared) {
            bytes.fill(0);
        }
        bytes.iter_mut().zip(seen).for_each(|(place, byte)| *place = byte as u8);
        0
    }
}
