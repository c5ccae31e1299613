//! A check of a client and its queue, over a line that loses and repeats.
use crate::draw::Draw;
use crate::same::same;
use anyhow::{Result, ensure};
use cases::{Random, Trials, run_each};
use qq_base::{Bytes, Duplicate, Index, QueueId, SessionId, Term, Text};
use qq_entry::{Command, Content, Deaths, Entry, Message, QueueArgs, Shared, Unstamped};
use qq_serial::Serial;
use qq_session::{HandFault, Publishing};
use std::alloc::Global;
use std::collections::VecDeque;

/// A client and its queue, with what is on its way between them.
#[derive(Drop)]
struct Line {
    alloc: Global,
    client: Publishing,
    queue: Serial,
    wire: VecDeque<Command>,
    /// The numbers of the commands that were carried out, in their order.
    carried: Vec<u64>,
    /// How many answers closed a number.
    closed: u64,
}

impl Line {
    fn new(alloc: Global) -> Self {
        Line {
            alloc,
            client: Publishing::new(alloc, SessionId::client(1), QueueId(1)),
            queue: Serial::new(alloc, QueueArgs::new(alloc, QueueId(1), 1)),
            wire: VecDeque::new(alloc),
            carried: Vec::new(alloc),
            closed: 0,
        }
    }

    // A new command, which is lost on its way by every fourth draw.
    fn hand(&mut self, random: &mut Random) -> Result<()> {
        let body = match random.once_in(2) {
            true => publish(self.alloc)?,
            false => Unstamped::Get,
        };
        match self.client.hand(self.alloc, body) {
            Ok(command) => {
                if !random.once_in(4) {
                    self.wire.push_back(command)?;
                }
            }
            Err(HandFault::WindowFull) => {}
            Err(fault) => return Err(fault.into()),
        }
        Ok(())
    }

    fn resend(&mut self) -> Result<()> {
        for command in self.client.resend(self.alloc)? {
            self.wire.push_back(command)?;
        }
        Ok(())
    }

    // The queue gets a command, and the client its answer or not.
    fn apply(&mut self, command: Command, heard: bool) -> Result<()> {
        let seq = command.stamp().map_or(0, |stamp| stamp.seq);
        let entry = Entry {
            term: Term(1),
            time: 0,
            command: Shared::new(self.alloc, command)?,
        };
        let index = Index(self.queue.applied() + 1);
        let (fresh, answer, _) = self.queue.step(self.alloc, index, &entry)?;
        if fresh {
            self.carried.push(seq)?;
        }
        if heard && self.client.answer(seq, &answer) {
            self.closed += 1;
        }
        Ok(())
    }

    // One command on its way comes, comes twice or falls behind the others.
    fn pass(&mut self, random: &mut Random) -> Result<()> {
        let Some(command) = self.wire.pop_front() else {
            return Ok(());
        };
        match random.below(4) {
            0 => {
                self.wire.push_back(command)?;
                return Ok(());
            }
            1 => self.wire.push_back(command.copy(self.alloc)?)?,
            _ => {}
        }
        self.apply(command, !random.once_in(3))
    }

    fn step(&mut self, random: &mut Random) -> Result<()> {
        match random.below(8) {
            0..3 => self.hand(random),
            3 => self.resend(),
            _ => self.pass(random),
        }
    }

    // All that is open comes, and each answer is heard.
    fn settle(&mut self) -> Result<()> {
        for command in self.client.resend(self.alloc)? {
            self.apply(command, true)?;
        }
        Ok(())
    }
}

// A publish of one byte.
fn publish(alloc: Global) -> Result<Unstamped> {
    let content = Content {
        body: Bytes::from_vec(vec![in alloc; b'x']?),
        key: Text::new(alloc),
        deaths: Deaths::new(alloc),
    };
    Ok(Unstamped::Enqueue {
        origin: None,
        message: Message::new(alloc, content)?,
    })
}

fn over_losses_and_repeats_each_command_acts_once(rt: HostRuntime) -> Result<()> {
    let alloc = rt.alloc();
    for seed in 1..4 {
        let mut random = Random::new(seed);
        let mut line = Line::new(alloc);
        for _ in 0..300 {
            line.step(&mut random)?;
        }
        line.settle()?;
        let handed = line.client.next() - 1;
        ensure!(handed > 50);
        ensure!(
            line.carried.iter().copied().eq(1..=handed),
            "carried out of order"
        );
        same((line.closed, line.client.open_count()), (handed, 0))?;
    }
    Ok(())
}

/// Runs them.
pub fn check(trials: &mut Trials) -> Result<()> {
    run_each!(trials;
        over_losses_and_repeats_each_command_acts_once,
    );
    Ok(())
}
