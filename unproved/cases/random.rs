use rand::RngExt;
use rand_core::SeedableRng;
use rand_pcg::Pcg32;

/// Random numbers, those of the generator PCG XSH RR 64/32 (Melissa O'Neill, 2014): the same for the same seed.
#[derive(Drop)]
pub struct Random {
    words: Pcg32,
}

impl Random {
    /// The numbers of a seed.
    pub fn new(seed: u64) -> Self {
        Random {
            words: Pcg32::seed_from_u64(seed),
        }
    }

    /// A number below an end, which is greater than 0.
    pub fn below(&mut self, end: u64) -> u64 {
        self.words.random_range(0..end)
    }
}
