//! *Check a tour*.

use crate::instance::Instance;
use crate::lengths::Lengths;
use crate::marks::Marks;
use crate::packed::some_pending;
use crate::refusal::Refusal;

/// The length of a tour and whether all its edges are open; pending ones are.
#[derive(Clone, Copy, Debug, PartialEq, Eq)]
pub struct TourAnswer {
    pub length: u64,
    pub all_open: bool,
}

/// 1, 2, 5, 6; 17.
pub fn check_tour(n: u32, table: &[u32], marks: &[u8], tour: &[u16]) -> Result<TourAnswer, Refusal> {
    let n = Instance::table_tests(n, table)?;
    some_pending(n, marks)?;
    if !each_point_once(n, tour) {
        return Err(Refusal::Tour);
    }
    let (lengths, marks) = (Lengths::new(n, table), Marks::in_look(marks));
    let mut answer = TourAnswer { length: 0, all_open: true };
    let mut at = tour[tour.len() - 1];
    for &next in tour {
        let place = lengths.order.place(at, next);
        answer.length += u64::from(table[place]);
        answer.all_open &= marks.open(place);
        at = next;
    }
    Ok(answer)
}

/// n numbers, each point from 1 to n exactly once.
fn each_point_once(n: u16, tour: &[u16]) -> bool {
    let mut seen = [false; Instance::SLOTS];
    tour.len() == usize::from(n)
        && tour.iter().all(|&v| (1..=n).contains(&v) && !std::mem::replace(&mut seen[usize::from(v)], true))
}
