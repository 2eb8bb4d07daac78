//! Memory to lend to the library, with garbage in it and a fence of known bytes or numbers before and behind.

/// The length of a fence.
const FENCE: usize = 64;

/// What memory is made of: bytes, or numbers.
pub trait Unit: Copy + PartialEq {
    /// What a fence holds.
    const POST: Self;
    const ZERO: Self;

    /// The garbage at place k.
    fn garbage(seed: u64, k: usize) -> Self;
}

impl Unit for u8 {
    const POST: u8 = 0xA5;
    const ZERO: u8 = 0;

    fn garbage(seed: u64, k: usize) -> u8 {
        (seed as u8).wrapping_add((k as u8).wrapping_mul(31)) ^ (k >> 8) as u8
    }
}

impl Unit for u32 {
    const POST: u32 = 0xA5A5_A5A5;
    const ZERO: u32 = 0;

    fn garbage(seed: u64, k: usize) -> u32 {
        (seed as u32).wrapping_add(k as u32).wrapping_mul(0x9E37_79B1)
    }
}

/// One run of memory of which parts are lent, job after job.
pub struct Lent<T = u8> {
    units: Vec<T>,
    size: usize,
    seed: u64,
}

impl<T: Unit> Lent<T> {
    /// Memory of which up to `most` units can be lent.
    pub fn new(most: usize) -> Self {
        Lent { units: vec![T::POST; FENCE + most + FENCE], size: 0, seed: 0 }
    }

    /// Makes the first `size` units ready, with garbage in them, and gives them. More than there is, is cut.
    pub fn ready(&mut self, size: usize, seed: u64) -> &mut [T] {
        self.size = size.min(self.units.len() - 2 * FENCE);
        self.seed = seed;
        for (k, unit) in self.units[FENCE..FENCE + self.size].iter_mut().enumerate() {
            *unit = T::garbage(seed, k);
        }
        self.units[..FENCE].fill(T::POST);
        self.units[FENCE + self.size..][..FENCE].fill(T::POST);
        &mut self.units[FENCE..FENCE + self.size]
    }

    /// What was made ready, to lend it.
    pub fn lent(&mut self) -> &mut [T] {
        &mut self.units[FENCE..FENCE + self.size]
    }

    /// What was lent.
    pub fn units(&self) -> &[T] {
        &self.units[FENCE..FENCE + self.size]
    }

    /// Whether both fences are as they were.
    pub fn fences_stand(&self) -> bool {
        let before = &self.units[..FENCE];
        let behind = &self.units[FENCE + self.size..][..FENCE];
        before.iter().chain(behind).all(|&unit| unit == T::POST)
    }

    /// Whether what was lent is all zero.
    pub fn is_zero(&self) -> bool {
        self.units().iter().fold(true, |all, &unit| all & (unit == T::ZERO))
    }

    /// Whether what was lent still holds its garbage from place `from` on.
    pub fn untouched_from(&self, from: usize) -> bool {
        let same = |(k, &unit): (usize, &T)| unit == T::garbage(self.seed, k);
        self.units().iter().enumerate().skip(from).map(same).fold(true, |all, one| all & one)
    }
}

impl Lent {
    /// The bytes lent.
    pub fn bytes(&self) -> &[u8] {
        self.units()
    }
}
