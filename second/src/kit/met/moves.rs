//! Which pairs were met that only the wider test 5 shuts out (02, Paper 7).

use std::fmt;

use crate::kit::met::moved::Mover;
use crate::sheet::Sheet;

/// Pairs by the depth of their split, from 2 on, by whether its point is on K, and by the only mover that decides.
type Counts = [[[u64; Mover::ALL.len()]; 2]; Sheet::MOST_SPLITS - 1];

const PLACES: [&str; 2] = ["off K", "on K"];

/// Where a pair stands.
#[derive(Clone, Copy)]
pub struct Place {
    pub depth: usize,
    pub on_k: bool,
    pub mover: Mover,
}

impl Place {
    pub fn all() -> Vec<Place> {
        let depths = 2..=Sheet::MOST_SPLITS;
        let places = depths.flat_map(|depth| [false, true].map(|on_k| (depth, on_k)));
        places.flat_map(|(depth, on_k)| Mover::ALL.map(|mover| Place { depth, on_k, mover })).collect()
    }

    fn of(self, counts: &Counts) -> u64 {
        counts[self.depth - 2][usize::from(self.on_k)][self.mover as usize]
    }

    fn count(self, counts: &mut Counts) {
        counts[self.depth - 2][usize::from(self.on_k)][self.mover as usize] += 1;
    }
}

impl fmt::Display for Place {
    fn fmt(&self, f: &mut fmt::Formatter) -> fmt::Result {
        write!(f, "depth {}, {}, for {}", self.depth, PLACES[usize::from(self.on_k)], self.mover.name())
    }
}

#[derive(Clone, Default)]
pub struct MovesMet {
    /// Pairs left out of accepted splits.
    left_out: Counts,
    /// Sheets refused by 14 for naming such a pair.
    refused: Counts,
    /// Pairs that stand with a move that saves 0, at any depth.
    ties: [[u64; Mover::ALL.len()]; 2],
}

impl MovesMet {
    /// A pair that an accepted split leaves out.
    pub fn left_out(&mut self, place: Place) {
        place.count(&mut self.left_out);
    }

    /// A sheet that names a pair: refused for that, or not where its best move saves 0.
    pub fn named(&mut self, place: Place, refused: bool) {
        if refused {
            place.count(&mut self.refused);
        } else {
            self.ties[usize::from(place.on_k)][place.mover as usize] += 1;
        }
    }

    fn counts(&self) -> [(&'static str, &Counts); 2] {
        [
            ("a pair left out of an accepted split", &self.left_out),
            ("a sheet refused by 14 for its pair", &self.refused),
        ]
    }

    /// What was never met.
    pub fn missing(&self) -> Vec<String> {
        let unmet = |(name, counts): (&'static str, &Counts)| {
            let unmet: Vec<Place> = Place::all().into_iter().filter(|place| place.of(counts) == 0).collect();
            unmet.into_iter().map(move |place| format!("{name} at {place}"))
        };
        let mut missing: Vec<String> = self.counts().into_iter().flat_map(unmet).collect();
        for (place, ties) in PLACES.iter().zip(self.ties) {
            let unmet = Mover::ALL.into_iter().filter(|&mover| ties[mover as usize] == 0);
            missing.extend(unmet.map(|mover| format!("a pair that stands by a tie {place}, for {}", mover.name())));
        }
        missing
    }
}

impl fmt::Display for MovesMet {
    fn fmt(&self, f: &mut fmt::Formatter) -> fmt::Result {
        let told = |places: &[[u64; Mover::ALL.len()]; 2]| {
            let [off, on] = places.map(|movers| movers.map(|times| times.to_string()).join(" "));
            format!("({off}; {on})")
        };
        write!(f, "moved points (x, y, another off K; on K), by depth from 2:")?;
        for (name, counts) in self.counts() {
            write!(f, " {name}: {};", counts.iter().map(told).collect::<Vec<_>>().join(" "))?;
        }
        write!(f, " at any depth: a pair that stands by a tie: {}", told(&self.ties))
    }
}
