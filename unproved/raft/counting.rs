//! A machine that counts, and checks of it and of a log as a server sees them.

use anyhow::{Result, ensure};
use cases::{Trials, run_each};
use qq_base::{Index, Memory, QueueId, Term};
use qq_entry::{Answer, Command, Effects, Entry, Shared};
use qq_log::{Lane, Log};
use qq_raft_msg::{LogView, Queue};
use std::alloc::Global;

/// A machine that counts entries. It answers each with the number of entries so far, as a purge of that many
/// messages.
#[derive(Drop)]
pub struct Counting {
    entries: u64,
}

impl Counting {
    /// A machine that has counted nothing.
    pub fn new() -> Self {
        Counting { entries: 0 }
    }
}

impl Queue for Counting {
    type Plain = Counting;

    ghost step = { ? };

    ghost passes_end = { ? };

    ghost least = { ? };

    ghost applied = { ? };

    ghost stands = { ? };

    fn apply(
        &mut self,
        alloc: Global,
        index: Index,
        _: &Entry,
    ) -> Result<(bool, Answer, Effects), Memory> {
        self.entries = index.0;
        Ok((true, Answer::Purged { count: index.0 }, Effects::new(alloc)))
    }

    fn low(&self) -> Index {
        Index(self.entries + 1)
    }
}

fn noop(alloc: Global, term: u64) -> Result<Entry> {
    Ok(Entry {
        term: Term(term),
        time: 0,
        command: Shared::new(alloc, Command::Noop { version: 1 })?,
    })
}

fn a_machine_may_count(rt: HostRuntime) -> Result<()> {
    let mut counting = Counting { entries: 4 };
    let alloc = rt.alloc();
    let (fresh, answer, effects) = counting.apply(alloc, Index(5), &noop(alloc, 1)?)?;
    ensure!(fresh);
    ensure!(answer == Answer::Purged { count: 5 });
    ensure!(effects.is_empty());
    ensure!(counting.low() == Index(6));
    Ok(())
}

/// The index of the last entry of a log that had two and is cut before the first.
fn cut<L: LogView>(alloc: Global, log: &mut L) -> Result<Index> {
    log.reserve(2)?;
    log.append(noop(alloc, 1)?);
    log.append(noop(alloc, 2)?);
    log.keep_to(log.base().index);
    Ok(log.last())
}

fn a_log_is_seen_as_one(rt: HostRuntime) -> Result<()> {
    let alloc = rt.alloc();
    let mut log = Log::from_lane(Lane::empty(alloc, QueueId(1)));
    ensure!(cut(alloc, &mut log)? == Index(0));
    Ok(())
}

pub fn check(trials: &mut Trials) -> Result<()> {
    run_each!(trials; a_log_is_seen_as_one, a_machine_may_count);
    Ok(())
}
