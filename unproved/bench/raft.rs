//! Commits entries by a group of Raft servers with counting machines, in memory.
//!
//! A group of 1, 3 or 5 members commits ENTRIES commands, which publish messages with a body of BODY bytes, WINDOW
//! commands at once: the leader adds them all, and then sends. Prints how many entries they were, how many nanoseconds that took, and how many of these
//! submits, deliveries of messages, writing of ops and notices took.
use crate::made::{publish, stamp};
use crate::words::number;
use anyhow::{Result, ensure};
use qq_base::{Index, Memory, NodeId, QueueId};
use qq_entry::{Answer, Command, Effects, Entry};
use qq_group::{Event, Group};
use qq_log::{Lane, Log, Op};
use qq_raft_msg::Queue;
use std::alloc::Global;
use std::time::Instant;

const QUEUE: QueueId = QueueId(1);

/// The rounds after which a window has to be committed.
const ROUNDS: u32 = 1_000;

/// A machine that counts entries.
#[derive(Drop)]
struct Counting(u64);

impl Queue for Counting {
    type Plain = Counting;

    ghost step = { ? };

    ghost passes_end = { ? };

    ghost least = { ? };

    ghost applied = { ? };

    ghost stands = { ? };

    fn apply(
        &mut self,
        alloc: Global,
        index: Index,
        _entry: &Entry,
    ) -> Result<(bool, Answer, Effects), Memory> {
        self.0 = index.0;
        Ok((true, Answer::Purged { count: index.0 }, Effects::new(alloc)))
    }

    fn low(&self) -> Index {
        Index(self.0 + 1)
    }
}

/// Nanoseconds that the steps of each kind took.
#[derive(Clone, Copy)]
struct Times {
    submit: u128,
    deliver: u128,
    write: u128,
    notice: u128,
}

const NONE: Times = Times {
    submit: 0,
    deliver: 0,
    write: 0,
    notice: 0,
};

/// A group, and the ops that were written to each member's disk.
#[derive(Drop)]
struct Bench {
    group: Group<Counting, Log>,
    disks: Vec<Vec<Op>>,
    times: Times,
}

impl Bench {
    fn new(alloc: Global, members: u8) -> Result<Self> {
        let mut nodes = Vec::new(alloc);
        let mut starts = Vec::new(alloc);
        let mut disks = Vec::new(alloc);
        for number in 1..=members {
            let log = Log::from_lane(Lane::empty(alloc, QUEUE));
            nodes.push(NodeId(number))?;
            starts.push((NodeId(number), Some((Counting(0), log))))?;
            disks.push(Vec::new(alloc))?;
        }
        let group = Group::new(alloc, QUEUE, &nodes, starts)?;
        Ok(Bench {
            group,
            disks,
            times: NONE,
        })
    }

    // How many messages were on their way, which all reach their members.
    fn deliver(&mut self, alloc: Global) -> Result<u32> {
        let count = self.group.messages();
        for _ in 0..count {
            self.group.step(alloc, Event::Deliver { place: 1 })?;
        }
        Ok(count)
    }

    // How many ops waited, which are all written.
    fn write(&mut self, alloc: Global) -> Result<u32> {
        let mut count = 0;
        for (disk, number) in self.disks.iter_mut().zip(1u8..) {
            for op in self.group.take_ops(alloc, NodeId(number))? {
                disk.push(op)?;
                count += 1;
            }
        }
        Ok(count)
    }

    // All members are told of what is on their disks, where ops have the numbers 1, 2 and so on.
    fn notice(&mut self, alloc: Global) -> Result<()> {
        for (disk, number) in self.disks.iter().zip(1u8..) {
            let event = Event::Notice {
                node: NodeId(number),
                op: disk.len() as u64,
            };
            self.group.step(alloc, event)?;
        }
        Ok(())
    }

    // Messages, ops and notices, until nothing is left to be done.
    fn settle(&mut self, rt: HostRuntime) -> Result<()> {
        for _ in 0..ROUNDS {
            let start = Instant::now(&rt)?;
            let delivered = self.deliver(rt.alloc())?;
            let first = start.elapsed(&rt)?.as_nanos();
            let written = self.write(rt.alloc())?;
            let second = start.elapsed(&rt)?.as_nanos();
            self.notice(rt.alloc())?;
            let third = start.elapsed(&rt)?.as_nanos();
            self.times.deliver += first;
            self.times.write += second - first;
            self.times.notice += third - second;
            if delivered == 0 && written == 0 {
                return Ok(());
            }
        }
        anyhow::bail!("a window isn't committed")
    }

    fn commit_window(&mut self, rt: HostRuntime, commands: Vec<Command>) -> Result<()> {
        let start = Instant::now(&rt)?;
        for command in commands {
            self.group.step(
                rt.alloc(),
                Event::Add {
                    node: NodeId(1),
                    time: 0,
                    command,
                },
            )?;
        }
        self.group
            .step(rt.alloc(), Event::Flush { node: NodeId(1) })?;
        self.times.submit += start.elapsed(&rt)?.as_nanos();
        self.settle(rt)
    }
}

fn commands(alloc: Global, window: u64, body: usize) -> Result<Vec<Command>> {
    let mut commands = Vec::new(alloc);
    for _ in 0..window {
        commands.push(publish(alloc, stamp(1), body)?)?;
    }
    Ok(commands)
}

pub fn run(rt: HostRuntime, words: &[String]) -> Result<()> {
    let (window, entries) = (number(words, 1)?, number(words, 2)?);
    let body = usize::try_from(number(words, 3)?)?;
    let mut bench = Bench::new(rt.alloc(), u8::try_from(number(words, 0)?)?)?;
    // Member 1 leads, which isn't timed.
    bench
        .group
        .step(rt.alloc(), Event::Tick { node: NodeId(1) })?;
    bench.settle(rt)?;
    bench.times = NONE;
    let windows = entries / window;
    for _ in 0..windows {
        let commands = commands(rt.alloc(), window, body)?;
        bench.commit_window(rt, commands)?;
    }
    let audit = bench.group.audit().len() as u64;
    ensure!(audit == windows * window + 1, "a command isn't committed");
    let Times {
        submit,
        deliver,
        write,
        notice,
    } = bench.times;
    let all = submit + deliver + write + notice;
    println!(rt; "{entries} {all} {submit} {deliver} {write} {notice}")?;
    Ok(())
}
