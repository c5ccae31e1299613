//! The disk of a member.

use crate::party::publish;
use crate::starts::Start;
use anyhow::{Result, bail, ensure};
use qq_base::{Duplicate, NodeId, QueueId, Term};
use qq_entry::{Entries, Entry, Shared};
use qq_log::{Lane, Log, Op};
use std::alloc::Global;
use std::mem;

/// The queue of the group.
pub const QUEUE: QueueId = QueueId(1);

/// The lane that the written ops make.
#[derive(Drop)]
pub struct Disk {
    lane: Lane,
}

impl Disk {
    /// A disk without ops.
    pub fn new(alloc: Global) -> Self {
        Disk {
            lane: Lane::empty(alloc, QUEUE),
        }
    }

    /// A disk that holds this, after one op where it holds anything. Each entry's time is its index, and its body
    /// has so many bytes.
    pub fn of(alloc: Global, start: &Start, size: usize) -> Result<Self> {
        let mut lane = Lane::empty(alloc, QUEUE);
        if start.term == 0 {
            return Ok(Disk { lane });
        }
        let mut entries = Vec::new(alloc);
        for term in &start.log {
            entries.push(Entry {
                term: Term(*term),
                time: entries.len() as u64 + 1,
                command: Shared::new(alloc, publish(alloc, size)?)?,
            })?;
        }
        lane.op = 1;
        lane.term = Term(start.term);
        lane.vote = (start.vote > 0).then_some(NodeId(start.vote));
        lane.entries = Entries::from_vec(entries);
        Ok(Disk { lane })
    }

    /// Its entries.
    pub fn entries(&self) -> &[Entry] {
        self.lane.entries.as_slice()
    }

    /// The same disk once more.
    pub fn copy(&self, alloc: Global) -> Result<Disk> {
        let mut lane = Lane::empty(alloc, QUEUE);
        lane.op = self.lane.op;
        lane.term = self.lane.term;
        lane.vote = self.lane.vote;
        lane.entries = self.lane.entries.copy(alloc)?;
        Ok(Disk { lane })
    }

    /// The number of the last op that was written.
    pub fn op(&self) -> u64 {
        self.lane.op
    }

    /// Writes the next op.
    pub fn write(&mut self, alloc: Global, op: Op) -> Result<()> {
        let Op::Change {
            op,
            term,
            vote,
            keep,
            entries,
            ..
        } = op
        else {
            bail!("an op is no change");
        };
        ensure!(op == self.lane.op + 1, "an op is missing");
        let mut kept = mem::replace(&mut self.lane.entries, Entries::new(alloc)).into_vec();
        ensure!(keep.0 <= kept.len() as u64, "an entry is missing");
        kept.truncate(keep.0 as usize);
        for entry in entries.into_vec() {
            kept.push(entry)?;
        }
        self.lane.op = op;
        self.lane.term = term;
        self.lane.vote = vote;
        self.lane.entries = Entries::from_vec(kept);
        Ok(())
    }

    /// The log that a server restarts with.
    pub fn log(&self, alloc: Global) -> Result<Log> {
        Ok(Log::from_lane(self.copy(alloc)?.lane))
    }
}
