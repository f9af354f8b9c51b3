//! Random numbers that depend on a seed and on nothing else.

/// A small generator with 64 bits of state (the one known as splitmix).
#[derive(Clone, Debug)]
pub struct Random {
    state: u64,
}

const STRIDE: u64 = 0x9E37_79B9_7F4A_7C15;

impl Random {
    /// The generator of one history. Every history of a seed has its own, so
    /// that it can be made again without those before it.
    pub fn for_history(seed: u64, history: u64) -> Random {
        let start = Random { state: seed }.draw() ^ history.wrapping_mul(STRIDE);
        let mut random = Random { state: start };
        random.draw();
        random
    }

    pub fn draw(&mut self) -> u64 {
        self.state = self.state.wrapping_add(STRIDE);
        let mut mixed = self.state;
        mixed = (mixed ^ (mixed >> 30)).wrapping_mul(0xBF58_476D_1CE4_E5B9);
        mixed = (mixed ^ (mixed >> 27)).wrapping_mul(0x94D0_49BB_1331_11EB);
        mixed ^ (mixed >> 31)
    }

    /// A number from 0 up to, and not with, the limit.
    pub fn below(&mut self, limit: usize) -> usize {
        (self.draw() % limit as u64) as usize
    }

    /// A number between both ends, ends included.
    pub fn between(&mut self, lowest: i64, highest: i64) -> i64 {
        let count = (highest - lowest + 1) as u64;
        lowest + (self.draw() % count) as i64
    }

    /// The same for settings.
    pub fn setting(&mut self, lowest: i32, highest: i32) -> i32 {
        self.between(i64::from(lowest), i64::from(highest)) as i32
    }

    /// True once in so many times.
    pub fn one_in(&mut self, times: usize) -> bool {
        self.below(times) == 0
    }

    pub fn pick<T: Copy>(&mut self, from: &[T]) -> T {
        from[self.below(from.len())]
    }

    /// Picks an index by weight.
    pub fn weighted(&mut self, weights: &[usize]) -> usize {
        let mut left = self.below(weights.iter().sum());
        for (index, weight) in weights.iter().enumerate() {
            if left < *weight {
                return index;
            }
            left -= weight;
        }
        unreachable!("the weights add up")
    }
}
