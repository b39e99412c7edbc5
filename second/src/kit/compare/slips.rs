//! Slips: random ones, and that of every sheet that is asked or is marked, over one table or two. Three programs show
//! them, and what two slips tell is held against what they keep.

use super::{Checked, Comparison, Difference, Hex};
use crate::bytes::slip_of;
use crate::kit::generate::rng::Rng;
use crate::kit::generate::slips::{near, random};
use crate::kit::met::coverage::Operation;
use crate::kit::met::slips::Met;
use crate::kit::programs::checker::Checker;
use crate::slip::{Slip, View};

/// Random slips in a case, each beside one that differs in a part.
const SLIPS: usize = 8;

/// Sizes of the buffer that a view is written to, from 0 on.
const SIZES: usize = 10;

/// The two views.
pub const VIEWS: [Operation; 2] = [Operation::ExaminerView, Operation::CandidateView];

/// A view of a slip in a program: the number answered.
fn view(checker: &dyn Checker, operation: Operation, slip: u64, bytes: &mut [u8]) -> u64 {
    match operation {
        Operation::ExaminerView => checker.examiner_view(slip, bytes),
        _ => checker.candidate_view(slip, bytes),
    }
}

/// The six bytes of a view.
pub fn seen(checker: &dyn Checker, operation: Operation, slip: u64) -> View {
    let mut bytes = [0; Slip::VIEW];
    view(checker, operation, slip, &mut bytes);
    bytes
}

impl Comparison<'_> {
    /// Random slips, by numbers of their own, so that the rest of a case stays as it is.
    pub fn slips(&mut self) -> Checked {
        let mut rng = Rng::new(!self.seed, self.case);
        for _ in 0..SLIPS {
            let one = random(&mut rng);
            let other = near(&mut rng, one);
            for slip in [one, other] {
                let size = rng.below(SIZES);
                self.slip(slip, size)?;
            }
            self.two_slips(one, other)?;
        }
        Ok(())
    }

    /// The slip of a sheet, which is what marking answers, alone and beside the one before.
    pub fn sheet_slip(&mut self, answer: u64) -> Checked {
        if answer >> 40 != 0 {
            return Err(self.difference("slip of a sheet, new", format!("slip {answer}\n")));
        }
        let size = self.coverage.slips.sheets as usize % SIZES;
        self.coverage.slips.sheet(slip_of(answer));
        self.slip(answer, size)?;
        if let Some(before) = self.last_slip.replace(answer) {
            self.two_slips(before, answer)?;
            let alike = VIEWS.map(|operation| seen(self.one, operation, before) == seen(self.one, operation, answer));
            self.coverage.slips.met(Met::AlikeSheets, alike == [false, true]);
        }
        Ok(())
    }

    /// A slip in three programs: released, and both views before and after, in so many bytes.
    fn slip(&mut self, slip: u64, size: usize) -> Checked {
        let released = self.release(slip)?;
        let twice = self.release(released)?;
        self.coverage.slips.met(Met::ReleasedTwice, twice == released);
        for slip in [slip, released] {
            self.coverage.slips.shown(slip_of(slip), slip >> 41, size);
            for operation in VIEWS {
                self.view(operation, slip, size)?;
            }
        }
        let [examiner, candidate] = VIEWS.map(|operation| seen(self.one, operation, released));
        if examiner != candidate {
            return Err(self.difference("released slip", format!("slip {slip}\n")));
        }
        Ok(())
    }

    /// Bit 40 is set, and every other stays.
    fn release(&mut self, slip: u64) -> Result<u64, Difference> {
        let [one, other, naive] = [self.one, self.other, self.naive].map(|checker| checker.release(slip));
        let told = || format!("slip {slip}\n");
        self.same("release", one, other, told)?;
        self.same_as("release", one, ("naive", naive), told)?;
        if one ^ slip != (1 << 40) & !slip {
            return Err(self.difference("release, other bits", told()));
        }
        Ok(one)
    }

    /// A view in three programs: the number, and every byte that was lent.
    fn view(&mut self, operation: Operation, slip: u64, size: usize) -> Checked {
        let lent: Vec<u8> = (1..=size as u8).map(|place| place.wrapping_mul(37)).collect();
        let [one, other, naive] = [self.one, self.other, self.naive].map(|checker| {
            let mut bytes = lent.clone();
            (view(checker, operation, slip, &mut bytes), bytes)
        });
        self.coverage.number(operation, one.0);
        let told = || format!("slip {slip} bytes {:?}\n", Hex(&lent));
        self.same(operation.name(), &one, &other, told)?;
        self.same_as(operation.name(), &one, ("naive", &naive), told)?;
        let kept = if size < Slip::VIEW { 0 } else { Slip::VIEW };
        if one.0 != if kept == 0 { 22 } else { 0 } || one.1[kept..] != lent[kept..] {
            return Err(self.difference(&format!("{}, bytes lent", operation.name()), told()));
        }
        Ok(())
    }

    /// "Two unreleased slips read the same to the candidate, byte for byte, exactly when alike in those two facts"; and
    /// the examiner sees all of a slip.
    fn two_slips(&mut self, one: u64, other: u64) -> Checked {
        let same = VIEWS.map(|operation| seen(self.one, operation, one) == seen(self.one, operation, other));
        let told = || format!("slips {one} and {other}\n");
        let low = (one ^ other) << 23 == 0;
        if same[0] != low {
            return Err(self.difference("two slips to the examiner", told()));
        }
        self.coverage.slips.met(Met::SameButAbove, low && one != other);
        let (one, other) = (slip_of(one), slip_of(other));
        if one.released || other.released {
            return Ok(());
        }
        self.coverage.slips.unreleased(one, other);
        if same[1] != (one.lines == other.lines && one.stopped() == other.stopped()) {
            return Err(self.difference("two slips to the candidate", told()));
        }
        Ok(())
    }
}
