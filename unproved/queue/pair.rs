use anyhow::{Result, ensure};
use qq_base::{Duplicate, Index};
use qq_entry::{Answer, Effect, Entry, QueueArgs};
use qq_machine::Machine;
use qq_entry::is_in_range;
use qq_serial::Serial;
use std::alloc::Global;

/// What applying an entry gives.
#[derive(Drop)]
pub struct Made {
    /// Of the entry.
    pub index: Index,
    /// Whether its command counted as fresh.
    pub fresh: bool,
    pub answer: Answer,
    /// In order.
    pub effects: Vec<Effect>,
}

/// The plain machine and the machine of parts, to which the same entries were applied.
#[derive(Drop)]
pub struct Pair {
    serial: Serial,
    pub machine: Machine,
}

impl Pair {
    /// Two queues of the same arguments, to which no entry was applied.
    pub fn new(alloc: Global, args: QueueArgs) -> Result<Self> {
        Ok(Pair {
            serial: Serial::new(alloc, args.copy(alloc)?),
            machine: Machine::new(alloc, args),
        })
    }

    /// Applies the next entry to both machines, which have to give the same.
    pub fn apply(&mut self, alloc: Global, entry: &Entry) -> Result<Made> {
        ensure!(is_in_range(entry), "the entry isn't in range");
        let index = Index(self.serial.applied() + 1);
        ensure!(
            self.machine.applied().0 + 1 == index.0,
            "the machines have applied other entries"
        );
        let plain = self.serial.step(alloc, index, entry)?;
        let made = self.machine.apply(alloc, index, entry)?;
        ensure!(plain == made, "the machines differ");
        let (fresh, answer, effects) = made;
        Ok(Made {
            index,
            fresh,
            answer,
            effects,
        })
    }
}
