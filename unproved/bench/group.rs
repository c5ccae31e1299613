//! Commits messages by a group of Raft servers with the machine of parts.
//!
//! A group of 1, 3 or 5 members commits ENTRIES commands, which publish messages with a body of BODY bytes, WINDOW
//! commands at once: the leader adds them all, and then sends. With `logs` each member's ops are written to a log of its own on a disk in memory, and synced;
//! with `none` they are dropped. With `purge` the messages of each window are purged once they are committed, with
//! `keep` they stay ready. Prints how many entries they were, how many nanoseconds that took, by how many KiB the
//! process grew, and how many bytes the messages' bodies have, each of which all members share.
use crate::log::new_log;
use crate::made::{publish, stamp};
use crate::memory::memory;
use crate::words::{number, word};
use anyhow::{Result, bail, ensure};
use qq_base::{NodeId, QueueId};
use qq_entry::{Command, QueueArgs};
use qq_group::{Event, Group};
use qq_log::{Lane, Log};
use qq_mem_disk::MemDisk;
use qq_queue::MachineQueue;
use qq_wal::Wal;
use std::alloc::Global;
use std::time::Instant;

const QUEUE: QueueId = QueueId(1);

/// The rounds after which a window has to be committed.
const ROUNDS: u32 = 1_000;

/// A member, and where its ops go.
#[derive(Drop)]
struct Member {
    node: NodeId,
    /// None where they are dropped.
    log: Option<Wal<MemDisk>>,
    /// How many ops it was handed.
    ops: u64,
}

impl Member {
    // How many ops waited, which are all written.
    fn write(&mut self, alloc: Global, group: &mut Group<MachineQueue, Log>) -> Result<u64> {
        let mut count = 0;
        for op in group.take_ops(alloc, self.node)? {
            if let Some(log) = &mut self.log {
                if let Err((fault, _)) = log.gather(op) {
                    bail!("{fault}");
                }
            }
            count += 1;
        }
        self.ops += count;
        let Some(log) = &mut self.log else {
            return Ok(count);
        };
        if count > 0 {
            log.append_batch(alloc)?;
            log.sync_batch(alloc)?;
        }
        Ok(count)
    }
}

#[derive(Drop)]
struct Bench {
    group: Group<MachineQueue, Log>,
    members: Vec<Member>,
}

impl Bench {
    fn new(alloc: Global, count: u8, logs: bool) -> Result<Self> {
        let mut nodes = Vec::new(alloc);
        let mut starts = Vec::new(alloc);
        let mut members = Vec::new(alloc);
        for number in 1..=count {
            let node = NodeId(number);
            let machine = MachineQueue::new(alloc, QueueArgs::new(alloc, QUEUE, count));
            nodes.push(node)?;
            starts.push((
                node,
                Some((machine, Log::from_lane(Lane::empty(alloc, QUEUE)))),
            ))?;
            let log = if logs { Some(new_log(alloc)?) } else { None };
            members.push(Member { node, log, ops: 0 })?;
        }
        let group = Group::new(alloc, QUEUE, &nodes, starts)?;
        Ok(Bench { group, members })
    }

    // Messages, ops and notices, until nothing is left to be done.
    fn settle(&mut self, alloc: Global) -> Result<()> {
        for _ in 0..ROUNDS {
            let mut done = u64::from(self.group.messages());
            for _ in 0..done {
                self.group.step(alloc, Event::Deliver { place: 1 })?;
            }
            for member in self.members.iter_mut() {
                done += member.write(alloc, &mut self.group)?;
                let (node, op) = (member.node, member.ops);
                self.group.step(alloc, Event::Notice { node, op })?;
            }
            if done == 0 {
                return Ok(());
            }
        }
        bail!("a window isn't committed")
    }

    fn commit_all(&mut self, alloc: Global, commands: Vec<Command>) -> Result<()> {
        for command in commands {
            self.group.step(
                alloc,
                Event::Add {
                    node: NodeId(1),
                    time: 0,
                    command,
                },
            )?;
        }
        self.group.step(alloc, Event::Flush { node: NodeId(1) })?;
        self.settle(alloc)
    }
}

pub fn run(rt: HostRuntime, words: &[String]) -> Result<()> {
    let alloc = rt.alloc();
    let (window, entries) = (number(words, 1)?, number(words, 2)?);
    let body = usize::try_from(number(words, 3)?)?;
    let (logs, purges) = (word(words, 4)? == "logs", word(words, 5)? == "purge");
    let mut bench = Bench::new(alloc, u8::try_from(number(words, 0)?)?, logs)?;
    // Member 1 leads, which isn't timed.
    bench.group.step(alloc, Event::Tick { node: NodeId(1) })?;
    bench.settle(alloc)?;
    let before = memory(&rt)?;
    let start = Instant::now(&rt)?;
    let (mut seq, mut bodies) = (0, 0);
    let windows = entries / window;
    for _ in 0..windows {
        let mut commands = Vec::new(alloc);
        for _ in 0..window {
            seq += 1;
            commands.push(publish(alloc, stamp(seq), body)?)?;
            bodies += body;
        }
        bench.commit_all(alloc, commands)?;
        if purges {
            seq += 1;
            let mut commands = Vec::new(alloc);
            commands.push(Command::Purge { stamp: stamp(seq) })?;
            bench.commit_all(alloc, commands)?;
        }
    }
    let spent = start.elapsed(&rt)?.as_nanos();
    let grown = memory(&rt)? - before;
    let audit = bench.group.audit().len() as u64;
    ensure!(audit == seq + 1, "a command isn't committed");
    println!(rt; "{} {spent} {grown} {bodies}", windows * window)?;
    Ok(())
}
