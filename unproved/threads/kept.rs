//! Ops of three queues, and a log that keeps them.

use qq_base::{Index, QueueId, Term};
use qq_entry::Entries;
use qq_inbox::Start;
use qq_log::{Op, Synced};
use std::alloc::Global;

/// A change without entries.
pub fn entryless(alloc: Global, queue: u32, number: u64) -> Op {
    Op::Change {
        queue: QueueId(queue),
        op: number,
        term: Term(1),
        vote: None,
        keep: Index(0),
        entries: Entries::new(alloc),
    }
}

/// A log without ops, to which an inbox brings the first ones.
pub struct Fresh;

impl Start for Fresh {
    ghost queues = { ? };

    ghost carries = { ? };
}

/// A log of queues 1 to 3 that keeps the number of the last op of each.
#[derive(Drop)]
pub struct Kept {
    pub last: [u64; 3],
    pub stopped: bool,
}

impl Synced for Kept {
    ghost synced_op = { ? };

    ghost is_stopped = { ? };

    fn synced(&self, queue: QueueId) -> u64 {
        self.last[queue.0 as usize - 1]
    }

    fn stopped(&self) -> bool {
        self.stopped
    }
}

impl Kept {
    /// Keeps an op, and returns whether it is the next one of its queue.
    pub fn keep(&mut self, op: &Op) -> bool {
        let last = &mut self.last[op.queue().0 as usize - 1];
        let is_next = op.number() == *last + 1;
        *last = op.number();
        is_next
    }
}
