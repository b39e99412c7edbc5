//! The conversions between byte set and packed set: there and back, and on damaged sets.

use super::{hex, Checked, Comparison, Difference, Hex};
use crate::instance::Instance;
use crate::kit::damage::sets::SetFault;
use crate::kit::damage::spoil;
use crate::kit::generate::boards;
use crate::kit::generate::rng::Rng;
use crate::kit::generate::sets::{old_bytes, packed, pending};
use crate::kit::met::coverage::{Event, Operation};
use crate::kit::programs::checker::Checker;
use crate::lengths::edge_count;
use crate::marks::PENDING;
use crate::packed::packed_size;

/// Damaged pairs of sets in a case.
const DAMAGED: usize = 12;

/// What a conversion is lent; which set is written depends on its direction.
#[derive(Clone)]
struct Sets {
    n: u32,
    bytes: Vec<u8>,
    packed: Vec<u8>,
}

/// Which way a conversion goes.
#[derive(Clone, Copy, PartialEq, Eq)]
enum Way {
    Pack,
    Unpack,
}

impl Way {
    fn operation(self) -> Operation {
        match self {
            Way::Pack => Operation::PackMarks,
            Way::Unpack => Operation::UnpackMarks,
        }
    }

    fn run(self, checker: &dyn Checker, sets: &mut Sets) -> u64 {
        match self {
            Way::Pack => checker.pack_marks(sets.n, &sets.bytes, &mut sets.packed),
            Way::Unpack => checker.unpack_marks(sets.n, &sets.packed, &mut sets.bytes),
        }
    }
}

/// What is wrong with a byte set.
enum ByteFault {
    Shorter,
    Longer,
    /// One byte above 2.
    Byte(usize),
    Other,
}

impl Sets {
    /// Marks of all three kinds, both ways.
    fn new(rng: &mut Rng, n: u16) -> Sets {
        let open = rng.pick(&[0, 50, 95, 100]);
        let mut bytes = boards::random_marks(rng, n, open);
        let per_hundred = rng.pick(&[0, 10, 50, 100]);
        boards::some_pending(rng, &mut bytes, per_hundred);
        Sets { n: u32::from(n), packed: packed(&bytes), bytes }
    }

    /// The same with old bytes where the conversion writes.
    fn to_write(&self, rng: &mut Rng, way: Way) -> Sets {
        let mut sets = self.clone();
        match way {
            Way::Pack => sets.packed = old_bytes(rng, self.packed.len()),
            Way::Unpack => sets.bytes = old_bytes(rng, self.bytes.len()),
        }
        sets
    }

    /// One damage.
    fn damage(&mut self, rng: &mut Rng, n: u16) {
        match rng.below(8) {
            0 => self.n = spoil::wrong_count(rng, self.n),
            1..=3 => self.damage_byte(rng),
            4 => one_off(rng, &mut self.bytes),
            5 => one_off(rng, &mut self.packed),
            _ if self.packed.len() == packed_size(n) => {
                rng.pick(&SetFault::with(n)).make(rng, n, &mut self.packed);
            }
            _ => {}
        }
    }

    /// A byte that is no mark; some of them are one modulo 4.
    fn damage_byte(&mut self, rng: &mut Rng) {
        let last = self.bytes.len() - 1;
        let any = rng.below(last);
        self.bytes[rng.pick(&[0, any, last])] = rng.pick(&[3, 3, 4, 5, 6, 7, 64, 128, 129, 255]);
    }

    /// Of a byte set that is written, the size alone counts.
    fn byte_fault(&self, way: Way, n: u16) -> Option<ByteFault> {
        let wrong = |&at: &usize| way == Way::Pack && self.bytes[at] > PENDING;
        let wrong: Vec<usize> = (0..self.bytes.len()).filter(wrong).collect();
        match (self.bytes.len() as isize - edge_count(n) as isize, &wrong[..]) {
            (0, []) => None,
            (-1, []) => Some(ByteFault::Shorter),
            (1, []) => Some(ByteFault::Longer),
            (0, &[at]) => Some(ByteFault::Byte(at)),
            _ => Some(ByteFault::Other),
        }
    }

    fn shown(&self, answer: u64) -> (u64, Hex<'_>, Hex<'_>) {
        (answer, Hex(&self.bytes), Hex(&self.packed))
    }

    fn hex(&self) -> String {
        format!("n {}\nbytes {}\npacked {}\n", self.n, hex(&self.bytes), hex(&self.packed))
    }
}

/// A byte less or more.
fn one_off(rng: &mut Rng, set: &mut Vec<u8>) {
    if rng.chance(50) {
        set.pop();
    } else {
        set.push(0);
    }
}

impl Comparison<'_> {
    /// A good set each way and back, and damaged ones.
    pub fn conversions(&mut self, rng: &mut Rng, n: u16) -> Checked {
        let sets = Sets::new(rng, n);
        for (there, back, event) in
            [(Way::Pack, Way::Unpack, Event::PackedBack), (Way::Unpack, Way::Pack, Event::UnpackedBack)]
        {
            let sent = self.convert(there, &sets.to_write(rng, there))?;
            let returned = self.convert(back, &sent.to_write(rng, back))?;
            if returned.shown(0) != sets.shown(0) {
                let what = format!("{}, then {}", there.operation().name(), back.operation().name());
                return Err(self.difference(&what, format!("{}left\n{}", sets.hex(), returned.hex())));
            }
            self.coverage.event(event, u64::from(pending(&sets.packed)));
        }
        for _ in 0..DAMAGED {
            let mut damaged = Sets::new(rng, n);
            for _ in 0..rng.between(1, 2) {
                damaged.damage(rng, n);
            }
            self.convert(Way::Pack, &damaged)?;
            self.convert(Way::Unpack, &damaged)?;
        }
        Ok(())
    }

    /// A conversion in all programs; answers the sets as they are left. A refusal leaves them as they were.
    fn convert(&mut self, way: Way, before: &Sets) -> Result<Sets, Difference> {
        let (mut sets, mut other_sets, mut naive_sets) = (before.clone(), before.clone(), before.clone());
        let answer = way.run(self.one, &mut sets);
        let other = way.run(self.other, &mut other_sets);
        let naive = way.run(self.naive, &mut naive_sets);
        self.coverage.number(way.operation(), answer);
        self.count_conversion(way, before, answer);
        let what = way.operation().name();
        self.same(what, sets.shown(answer), other_sets.shown(other), || before.hex())?;
        self.same_as(what, sets.shown(answer), ("naive", naive_sets.shown(naive)), || before.hex())?;
        if answer != 0 && sets.shown(answer) != before.shown(answer) {
            return Err(self.difference(&format!("{what}, refused"), before.hex()));
        }
        Ok(sets)
    }

    fn count_conversion(&mut self, way: Way, sets: &Sets, number: u64) {
        let Ok(n) = Instance::point_count(sets.n) else {
            let faulty = sets.bytes.iter().any(|&mark| mark > PENDING);
            return self.coverage.event(Event::PointsFirst, u64::from(faulty));
        };
        let packed_good = match way {
            Way::Pack => sets.packed.len() == packed_size(n),
            Way::Unpack => SetFault::good(n, &sets.packed),
        };
        match sets.byte_fault(way, n) {
            None => self.coverage.sets.count(way.operation(), sets.n, &sets.packed, number),
            Some(_) if !packed_good => self.coverage.event(Event::BothSets, 1),
            Some(ByteFault::Shorter) => {
                self.coverage.event([Event::PackShorter, Event::UnpackShorter][way as usize], 1)
            }
            Some(ByteFault::Longer) => self.coverage.event([Event::PackLonger, Event::UnpackLonger][way as usize], 1),
            Some(ByteFault::Byte(at)) => self.count_wrong_byte(sets.bytes[at], at, sets.bytes.len() - 1),
            Some(ByteFault::Other) => {}
        }
    }

    /// A byte set refused for one byte.
    fn count_wrong_byte(&mut self, byte: u8, at: usize, last: usize) {
        self.coverage.event(if byte == 3 { Event::ByteThree } else { Event::ByteAboveThree }, 1);
        self.coverage.event(Event::FirstByte, u64::from(at == 0));
        self.coverage.event(Event::LastByte, u64::from(at == last));
    }
}
