//! Limits to run a job under: around what its terms need, the bench's, and the ends of their range.
use super::{Case, Maker};
use crate::job::{Limits, RACK, run_whole};

/// Those of the small bench tester.
const BENCH: Limits = Limits { width: 16, terms: 1024 };

impl Maker {
    pub fn limits(&mut self, case: &Case) -> Vec<Limits> {
        let store = run_whole(&case.job, case.lent, |_| {}).1;
        let widths: Vec<u32> = store.list.iter().map(|&id| store.pool.width(id) as u32).collect();
        let (widest, kept) = (widths.iter().copied().max().unwrap_or(0), store.list.len() as u32);
        let some = self.rng.pick(&widths);
        // The backs of a job may have dropped terms, so that it keeps more for a while.
        let most = (self.peak as u32).max(kept);
        let width = self.rng.pick(&[
            0,
            1,
            some,
            some.saturating_sub(1),
            widest,
            widest.saturating_sub(1),
            16,
            64,
            65,
            u32::MAX,
        ]);
        let below = self.rng.below(most as usize) as u32;
        let terms = self.rng.pick(&[0, 1, 2, 3, below, kept, kept - 1, most, most - 1, most + 1, 1024, u32::MAX]);
        let tight = Limits { width: widest, terms: most };
        let mut under = vec![BENCH, Limits { width, ..RACK }, Limits { terms, ..RACK }];
        under.push(self.rng.pick(&[Limits { width, terms }, tight, RACK, Limits { width: u32::MAX, terms: u32::MAX }]));
        under
    }
}
