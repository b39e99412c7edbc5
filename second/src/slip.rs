//! Slips for examiner and candidate (02, Paper 13).

use crate::marking::Marked;
use crate::refusal::Refusal;

/// "A slip keeps a marked sheet's refusal number or 0, record, number of accepted lines and whether it is released."
#[derive(Clone, Copy, Debug, PartialEq, Eq)]
pub struct Slip {
    pub refusal: u8,
    pub record: u16,
    pub lines: u16,
    pub released: bool,
}

/// What someone sees of a slip.
pub type View = [u8; Slip::VIEW];

impl Slip {
    /// How many bytes a view has.
    pub const VIEW: usize = 6;

    /// The first byte that the candidate sees of a sheet that stopped, until release.
    pub const STOPPED: u8 = 255;

    /// "A new one is not" released. A sheet has at most 4,000 lines.
    pub fn new(marked: Marked) -> Slip {
        let (refusal, record) = marked.fault.map_or((0, 0), |fault| (fault.refusal.number(), fault.record));
        Slip { refusal, record, lines: marked.lines as u16, released: false }
    }

    /// "Releasing changes nothing else."
    pub fn release(self) -> Slip {
        Slip { released: true, ..self }
    }

    pub fn stopped(self) -> bool {
        self.refusal != 0
    }

    /// "Refusal number, released 0 or 1, then record and lines, two each."
    pub fn examiner_view(self) -> View {
        let ([r, s], [l, m]) = (self.record.to_le_bytes(), self.lines.to_le_bytes());
        [self.refusal, u8::from(self.released), r, s, l, m]
    }

    /// "Until release the candidate sees the lines and whether the sheet stopped: the first byte is 0 or 255, the
    /// record 0. After release the candidate sees the examiner's bytes."
    pub fn candidate_view(self) -> View {
        if self.released {
            return self.examiner_view();
        }
        let [l, m] = self.lines.to_le_bytes();
        [if self.stopped() { Slip::STOPPED } else { 0 }, 0, 0, 0, l, m]
    }
}

/// Writes a view to the front of the bytes; those past it stay. 22 if they are too few.
pub fn write_view(view: View, bytes: &mut [u8]) -> Result<(), Refusal> {
    bytes.get_mut(..Slip::VIEW).ok_or(Refusal::Buffer)?.copy_from_slice(&view);
    Ok(())
}
