//! Random calls of a disk, the same for the same seed.

use anyhow::Result;
use cases::Random;
use std::alloc::Global;

#[derive(Drop)]
pub struct Calls {
    random: Random,
}

impl Calls {
    pub fn new(seed: u64) -> Self {
        Calls {
            random: Random::new(seed),
        }
    }

    fn below(&mut self, end: usize) -> usize {
        self.random.below(end as u64) as usize
    }

    fn file(&mut self, alloc: Global) -> Result<String> {
        let kind = ["log", "segment", "snapshot"][self.below(3)];
        Ok(format!(in alloc; "{kind} {}", self.below(8))?)
    }

    fn letters(&mut self, alloc: Global) -> Result<String> {
        let mut letters = String::new(alloc);
        for _ in 0..self.below(40) {
            letters.push(['a', 'b', 'c', 'd'][self.below(4)])?;
        }
        Ok(letters)
    }

    /// The next call, as a line.
    pub fn next(&mut self, alloc: Global) -> Result<String> {
        let which = self.below(12);
        let file = self.file(alloc)?;
        Ok(match which {
            0..=4 => format!(in alloc; "append {file} {}", self.letters(alloc)?)?,
            5 | 6 => format!(in alloc; "sync {file}")?,
            7 => format!(in alloc; "remove {file}")?,
            8 => format!(in alloc; "size {file}")?,
            9 => String::from_str(alloc, "names")?,
            _ => format!(in alloc; "read {file} {} {}", self.below(90), self.below(60))?,
        })
    }
}
