//! Hands ops from one thread to another through an inbox, or looks at marks while another thread raises them.
//!
//! `ops BYTES COUNT ROUNDS`: COUNT ops with a body of BYTES bytes are handed over ROUNDS times. `marks COUNT`: a
//! thread raises a mark COUNT times, by one each time, and another looks until it sees the last.
use crate::made::{entry, publish, stamp};
use crate::words::{number, word};
use anyhow::Result;
use qq_base::{Index, QueueId, Term};
use qq_entry::Entries;
use qq_inbox::{Start, hand_over, wait_for_op};
use qq_log::{Op, Synced};
use std::alloc::Global;
use std::collections::VecDeque;
use std::sync::Wait;
use std::thread::Threads;
use std::time::{Clock, Duration, Instant};

/// The most ops that a node's inbox holds.
const CAPACITY: usize = 8_192;

/// A log without ops, to which an inbox brings the first ones.
struct Fresh;

impl Start for Fresh {
    ghost queues = { ? };

    ghost carries = { ? };
}

/// A log that has synced every op up to a number.
#[derive(Drop)]
struct SyncedUpTo(u64);

impl Synced for SyncedUpTo {
    ghost synced_op = { ? };

    ghost is_stopped = { ? };

    fn synced(&self, _queue: QueueId) -> u64 {
        self.0
    }

    fn stopped(&self) -> bool {
        false
    }
}

fn each_second(count: u64, time: Duration) -> u128 {
    u128::from(count) * 1_000_000_000 / time.as_nanos().max(1)
}

// Queue 1's op that publishes a body.
fn op_of(alloc: Global, number: u64, bytes: usize) -> Result<Op> {
    let mut entries = Entries::new(alloc);
    entries.push(entry(alloc, publish(alloc, stamp(number), bytes)?)?)?;
    Ok(Op::Change {
        queue: QueueId(1),
        op: number,
        term: Term(1),
        vote: None,
        keep: Index(number - 1),
        entries,
    })
}

fn time_ops<R: Threads + Wait + Sync + Clock + Print>(
    rt: &R,
    alloc: Global,
    bytes: usize,
    count: u64,
    rounds: u64,
) -> Result<()> {
    let mut ops = VecDeque::new(alloc);
    for number in 1..=count {
        ops.push_back(op_of(alloc, number, bytes)?)?;
    }
    let start = Instant::now(rt)?;
    for _ in 0..rounds {
        ops = hand_over::<Fresh, R>(rt, alloc, CAPACITY, ops)?.taken;
    }
    let spent = start.elapsed(rt)?;
    println!(rt;
        "{bytes} bytes: {} ops a second",
        each_second(count * rounds, spent)
    )?;
    Ok(())
}

fn time_marks<R: Threads + Wait + Sync + Clock + Print>(
    rt: &R,
    alloc: Global,
    count: u64,
) -> Result<()> {
    let log = SyncedUpTo(count);
    let start = Instant::now(rt)?;
    let looks = wait_for_op(rt, alloc, &log, QueueId(1), count)?
        .sighting
        .looks;
    let spent = start.elapsed(rt)?;
    println!(rt;
        "seen: {} a second, beside {} raises a second",
        each_second(looks, spent),
        each_second(count, spent)
    )?;
    Ok(())
}

pub fn run<R: Threads + Wait + Sync + Clock + Print>(
    rt: &R,
    alloc: Global,
    words: &[String],
) -> Result<()> {
    match word(words, 0)? {
        "ops" => {
            let bytes = usize::try_from(number(words, 1)?)?;
            time_ops(rt, alloc, bytes, number(words, 2)?, number(words, 3)?)
        }
        _ => time_marks(rt, alloc, number(words, 1)?),
    }
}
