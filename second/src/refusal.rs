//! Refusal numbers (01, Each operation and its refusals; 02).

/// Why an input is refused; the value is the papers' number.
#[derive(Clone, Copy, Debug, PartialEq, Eq)]
#[repr(u8)]
pub enum Refusal {
    PointCount = 1,
    TableSize = 2,
    Rule = 3,
    Coordinate = 4,
    TableEntry = 5,
    Marks = 6,
    Records = 7,
    IndexAboveCount = 8,
    IndexNotRising = 9,
    Kind = 10,
    PointField = 11,
    EdgeStruck = 12,
    SeventhSplit = 13,
    Pair = 14,
    CrossingPlace = 15,
    NoSaving = 16,
    Tour = 17,
    ListSize = 18,
    Text = 19,
    SomethingPending = 20,
    NothingPending = 21,
    Buffer = 22,
    NoSegment = 23,
    NotShorter = 24,
    LowAboveHigh = 25,
    Page = 26,
    PageText = 27,
    Desk = 28,
    LineLeft = 29,
}

impl Refusal {
    pub fn number(self) -> u8 {
        self as u8
    }
}

/// A refusal with its record, 0 where no record is at fault.
#[derive(Clone, Copy, Debug, PartialEq, Eq)]
pub struct Fault {
    pub refusal: Refusal,
    pub record: u16,
}

/// Refuses with `refusal` at `record` unless the test holds.
pub fn demand(holds: bool, refusal: Refusal, record: u16) -> Result<(), Fault> {
    if holds {
        Ok(())
    } else {
        Err(Fault { refusal, record })
    }
}
