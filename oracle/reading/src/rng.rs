//! Random numbers that a seed repeats: xorshift64*.

pub struct Rng(u64);

impl Rng {
    pub fn new(seed: u64) -> Self {
        let mut rng = Rng(seed.wrapping_mul(0x2545_F491_4F6C_DD1D) ^ 0x1234_5678_9ABC_DEF1 | 1);
        rng.number();
        rng.number();
        rng
    }

    pub fn number(&mut self) -> u64 {
        self.0 ^= self.0 >> 12;
        self.0 ^= self.0 << 25;
        self.0 ^= self.0 >> 27;
        self.0.wrapping_mul(0x2545_F491_4F6C_DD1D)
    }

    /// A number below `n`, which is above 0.
    pub fn below(&mut self, n: usize) -> usize {
        (self.number() >> 16) as usize % n
    }

    pub fn range(&mut self, low: usize, high: usize) -> usize {
        low + self.below(high - low + 1)
    }

    pub fn chance(&mut self, percent: usize) -> bool {
        self.below(100) < percent
    }

    pub fn pick<T: Copy>(&mut self, list: &[T]) -> T {
        list[self.below(list.len())]
    }

    /// A value with few or many bits, often at an end of its range.
    pub fn value(&mut self) -> u64 {
        match self.below(5) {
            0 => self.number(),
            1 => self.number() >> self.below(64),
            2 => self.pick(&[0, 1, 2, u64::MAX, u64::MAX - 1]),
            3 => u64::MAX << self.below(64),
            _ => 1 << self.below(64),
        }
    }
}
