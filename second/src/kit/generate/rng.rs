//! A small seeded generator of numbers (SplitMix64).

#[derive(Clone)]
pub struct Rng {
    state: u64,
}

impl Rng {
    /// A stream of its own for each seed and number.
    pub fn new(seed: u64, number: u64) -> Self {
        let mut rng = Rng { state: seed ^ number.wrapping_mul(0xd134_2543_de82_ef95) };
        rng.state = rng.word();
        rng
    }

    pub fn word(&mut self) -> u64 {
        self.state = self.state.wrapping_add(0x9e37_79b9_7f4a_7c15);
        let mut z = self.state;
        z = (z ^ (z >> 30)).wrapping_mul(0xbf58_476d_1ce4_e5b9);
        z = (z ^ (z >> 27)).wrapping_mul(0x94d0_49bb_1331_11eb);
        z ^ (z >> 31)
    }

    /// 0 to limit − 1; limit is not 0.
    pub fn below(&mut self, limit: usize) -> usize {
        ((u128::from(self.word()) * limit as u128) >> 64) as usize
    }

    /// low to high, both counted.
    pub fn between(&mut self, low: usize, high: usize) -> usize {
        low + self.below(high - low + 1)
    }

    /// True in `per_hundred` of a hundred draws.
    pub fn chance(&mut self, per_hundred: usize) -> bool {
        self.below(100) < per_hundred
    }

    pub fn pick<T: Copy>(&mut self, items: &[T]) -> T {
        items[self.below(items.len())]
    }

    /// A point of 1 to n.
    pub fn point(&mut self, n: u16) -> u16 {
        self.between(1, usize::from(n)) as u16
    }

    /// So many different points of 1 to n.
    pub fn points(&mut self, n: u16, count: usize) -> Vec<u16> {
        let mut points: Vec<u16> = (1..=n).collect();
        self.shuffle(&mut points);
        points.truncate(count);
        points
    }

    pub fn shuffle<T>(&mut self, items: &mut [T]) {
        for i in (1..items.len()).rev() {
            items.swap(i, self.below(i + 1));
        }
    }
}
