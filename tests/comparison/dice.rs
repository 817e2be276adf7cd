//! Chance that is the same at every run from the same seed.

/// Xorshift: no more than this is asked of it.
pub struct Dice(u64);

impl Dice {
    /// Spreads seeds that are close together; 0 would stay 0 for ever.
    pub fn new(seed: u64) -> Dice {
        let spread = (seed ^ 0x2545_f491_4f6c_dd1d).wrapping_mul(0x9e37_79b9_7f4a_7c15);
        Dice((spread ^ spread >> 29).max(1))
    }

    pub fn below(&mut self, n: usize) -> usize {
        self.0 ^= self.0 << 13;
        self.0 ^= self.0 >> 7;
        self.0 ^= self.0 << 17;
        (self.0 >> 32) as usize % n
    }

    pub fn once_in(&mut self, n: usize) -> bool {
        self.below(n) == 0
    }

    pub fn one<T: Clone>(&mut self, of: &[T]) -> T {
        of[self.below(of.len())].clone()
    }

    pub fn shuffle<T>(&mut self, list: &mut [T]) {
        for k in (1..list.len()).rev() {
            list.swap(k, self.below(k + 1));
        }
    }

    pub fn insert<T>(&mut self, list: &mut Vec<T>, item: T) {
        list.insert(self.below(list.len() + 1), item);
    }
}
