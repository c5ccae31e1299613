//! Times the machines of a queue.
//!
//! READY messages with bodies of 100 bytes are ready, and CONSUMERS consumers have no credit. Then ENTRIES entries of
//! each of four kinds are applied, the session gate and the answer included: gets, enqueues, credits that deliver
//! one message each, and settles of these. Prints how many entries of each kind they were, how many nanoseconds
//! each kind took, and by how many KiB the process grew with the messages.
use crate::made::{entry, publish, stamp};
use crate::memory::memory;
use crate::words::{number, word};
use anyhow::{Result, ensure};
use qq_base::{Ids, Index, QueueId};
use qq_entry::{Answer, Command, Entry, Mode, QueueArgs, Stamp};
use qq_machine::Machine;
use qq_serial::Serial;
use std::alloc::Global;
use std::time::Instant;

/// How many entries of a kind come one behind the other.
const BATCH: u64 = 250;

/// The bytes of a message's body.
const BODY: usize = 100;

#[derive(Drop)]
enum Queue {
    Parts(Machine),
    Plain(Serial),
}

impl Queue {
    fn new(alloc: Global, machine: &str) -> Result<Self> {
        let args = QueueArgs::new(alloc, QueueId(1), 1);
        match machine {
            "parts" => Ok(Queue::Parts(Machine::new(alloc, args))),
            "plain" => Ok(Queue::Plain(Serial::new(alloc, args))),
            _ => anyhow::bail!("a machine is `parts` or `plain`"),
        }
    }

    // The answer to the next entry, and how many effects it has.
    fn apply(&mut self, alloc: Global, entry: &Entry) -> Result<(Answer, usize)> {
        match self {
            Queue::Parts(machine) => {
                let next = Index(machine.applied().0 + 1);
                let (_, answer, effects) = machine.apply(alloc, next, entry)?;
                Ok((answer, effects.len()))
            }
            Queue::Plain(serial) => {
                let next = Index(serial.applied() + 1);
                let (_, answer, effects) = serial.step(alloc, next, entry)?;
                Ok((answer, effects.len()))
            }
        }
    }
}

#[derive(Clone, Copy)]
enum Kind {
    /// A consumer joins, which isn't timed.
    Subscribe,
    Get,
    Enqueue,
    /// A credit that delivers one message.
    Deliver,
    Settle,
}

/// The kinds that are timed, in the order in which they come.
const TIMED: [Kind; 4] = [Kind::Get, Kind::Enqueue, Kind::Deliver, Kind::Settle];

impl Kind {
    // Whether an entry of this kind came to what it is timed for.
    fn is_done(self, answer: &Answer, effects: usize) -> bool {
        match self {
            Kind::Subscribe => true,
            Kind::Get => matches!(answer, Answer::Got(_)),
            Kind::Enqueue => matches!(answer, Answer::Confirmed),
            Kind::Deliver => effects == 1,
            Kind::Settle => matches!(answer, Answer::Done),
        }
    }
}

/// A queue that is timed, with one client.
#[derive(Drop)]
struct Bench {
    queue: Queue,
    consumers: u64,
    /// The number of the client's last command.
    last: u64,
    joined: u32,
    delivered: u64,
    settled: u64,
}

impl Bench {
    fn stamp(&mut self) -> Stamp {
        self.last += 1;
        stamp(self.last)
    }

    // The tag of the consumer whose turn it is, and how many deliveries it has had.
    fn turn_at(&self, at: u64) -> Result<(u32, u32)> {
        let tag = at % self.consumers + 1;
        Ok((u32::try_from(tag)?, u32::try_from(at / self.consumers)?))
    }

    fn subscribe(&mut self) -> Command {
        self.joined += 1;
        Command::Subscribe {
            stamp: self.stamp(),
            tag: self.joined,
            mode: Mode::Link,
        }
    }

    fn deliver(&mut self) -> Result<Command> {
        let (tag, count) = self.turn_at(self.delivered)?;
        self.delivered += 1;
        Ok(Command::Credit {
            stamp: self.stamp(),
            tag,
            count,
            credit: 1,
            drain: false,
        })
    }

    fn settle(&mut self, alloc: Global) -> Result<Command> {
        let (tag, count) = self.turn_at(self.settled)?;
        self.settled += 1;
        let mut ids = Ids::new(alloc);
        ids.push(u64::from(count) + 1)?;
        Ok(Command::Settle {
            stamp: self.stamp(),
            tag,
            ids,
        })
    }

    fn next_entry(&mut self, alloc: Global, kind: Kind) -> Result<Entry> {
        let command = match kind {
            Kind::Subscribe => self.subscribe(),
            Kind::Get => Command::Get {
                stamp: self.stamp(),
            },
            Kind::Enqueue => publish(alloc, self.stamp(), BODY)?,
            Kind::Deliver => self.deliver()?,
            Kind::Settle => self.settle(alloc)?,
        };
        entry(alloc, command)
    }

    fn apply(&mut self, alloc: Global, kind: Kind, entry: &Entry) -> Result<()> {
        let (answer, effects) = self.queue.apply(alloc, entry)?;
        ensure!(
            kind.is_done(&answer, effects),
            "an entry came to something else"
        );
        Ok(())
    }

    fn apply_each(&mut self, alloc: Global, kind: Kind, count: u64) -> Result<()> {
        for _ in 0..count {
            let entry = self.next_entry(alloc, kind)?;
            self.apply(alloc, kind, &entry)?;
        }
        Ok(())
    }

    // Nanoseconds of a batch of a kind, whose entries are made before.
    fn time(&mut self, rt: HostRuntime, kind: Kind) -> Result<u128> {
        let mut entries = Vec::new(rt.alloc());
        for _ in 0..BATCH {
            entries.push(self.next_entry(rt.alloc(), kind)?)?;
        }
        let start = Instant::now(&rt)?;
        for entry in &entries {
            self.apply(rt.alloc(), kind, entry)?;
        }
        Ok(start.elapsed(&rt)?.as_nanos())
    }
}

pub fn run(rt: HostRuntime, words: &[String]) -> Result<()> {
    let queue = Queue::new(rt.alloc(), word(words, 0)?)?;
    let (ready, consumers) = (number(words, 1)?, number(words, 2)?);
    let rounds = number(words, 3)? / BATCH;
    ensure!(ready >= BATCH, "a batch has to be ready");
    ensure!(consumers > 0, "a consumer has to be there");
    let mut bench = Bench {
        queue,
        consumers,
        last: 0,
        joined: 0,
        delivered: 0,
        settled: 0,
    };
    bench.apply_each(rt.alloc(), Kind::Subscribe, consumers)?;
    let before = memory(&rt)?;
    bench.apply_each(rt.alloc(), Kind::Enqueue, ready)?;
    let grown = memory(&rt)?.saturating_sub(before);
    let mut times = [0u128; 4];
    for _ in 0..rounds {
        for (time, kind) in times.iter_mut().zip(TIMED) {
            *time += bench.time(rt, kind)?;
        }
        bench.apply_each(rt.alloc(), Kind::Enqueue, BATCH)?;
    }
    let [get, enqueue, deliver, settle] = times;
    println!(rt;
        "{} {get} {enqueue} {deliver} {settle} {grown}",
        rounds * BATCH
    )?;
    Ok(())
}
