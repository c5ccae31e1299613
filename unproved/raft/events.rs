//! Cases of a group's events. Members are numbered from 1, and so are the messages that are on their way. The
//! lines are
//!
//! - `group COUNT`: from here on a new group of COUNT members over new disks, all of them up;
//! - `disk TERM VOTE TERM..`: what the next disk holds: its term, the node that it voted for or 0, and the terms of
//!   its entries. `open COUNT`: from here on a group over these disks, whose audit has the first COUNT entries of
//!   the first one. The answer says whether the disks support it. Each of their entries fills a message;
//! - `tick N`, `crash N`: time passes at a member, or it crashes;
//! - `publish N [COUNT [SIZE]]`: COUNT commands reach a member, each with a body of SIZE bytes; `add N [COUNT
//!   [SIZE]]`: the same, but that they aren't sent before the next `flush N`;
//! - `deliver PLACE`, `lose PLACE`, `copy PLACE`: what becomes of a message; `to N`: all messages that are on
//!   their way to a member reach it; `drop`: all messages are lost;
//! - `write N`: all ops of a member that wait are written to its disk; `notice N [OP]`: it learns that they are
//!   durable, all that its disk holds or those up to an op;
//! - `restart N OP`: a member that is down restarts over what its disk held when an op was the last on it;
//! - `settle`: messages are delivered, ops written and noticed, until nothing is left;
//! - `state`, `audit`, `log N`, `bag`: each member, the terms of the committed entries and of a member's, and whom
//!   messages are for.
//!
//! An answer says that the event didn't happen, and why, or which entries a leader answers by it.

use crate::disk::Disk;
use crate::party::Party;
use crate::starts::{self, Start, are_supported};
use anyhow::{Context, Result, bail};
use cases::{Words, answer_lines};
use qq_base::NodeId;
use qq_entry::Entry;
use qq_group::{Event, Outcome, Shown};
use qq_raft_msg::Role;
use std::alloc::Global;
use std::mem;

/// The bytes of a body of which a message holds one.
const FULL: usize = 600_000;

/// The rounds after which nothing may be on its way.
const ROUNDS: u32 = 1_000;

/// A group, and what the disks of its members held at each op.
#[derive(Drop)]
struct Stage {
    alloc: Global,
    party: Party,
    older: Vec<(u8, Disk)>,
    starts: Vec<Start>,
    submitted: u64,
}

/// The outcome of an event, and the entries that it answers.
fn text(alloc: Global, shown: &Shown) -> Result<String> {
    let mut text = String::new(alloc);
    match shown.outcome {
        Outcome::Done => {}
        Outcome::Down => text.push_str("down\n")?,
        Outcome::NoSuch => text.push_str("no such\n")?,
        Outcome::Unfit => text.push_str("unfit\n")?,
        Outcome::NotLeader { hint: None } => text.push_str("not the leader\n")?,
        Outcome::NotLeader { hint: Some(leader) } => {
            writeln!(text, "not the leader, which is {}", leader.0)?;
        }
    }
    for applied in &shown.rows {
        let (index, term) = (applied.row.index.0, applied.row.entry.term.0);
        writeln!(text, "answers entry {index} of term {term}")?;
    }
    Ok(text)
}

/// The terms of entries, in order.
fn terms(alloc: Global, entries: &[Entry]) -> Result<String> {
    let mut text = String::from_str(alloc, "terms")?;
    for entry in entries {
        write!(text, " {}", entry.term.0)?;
    }
    Ok(text)
}

impl Stage {
    fn new(alloc: Global, count: u8) -> Result<Stage> {
        Ok(Stage {
            alloc,
            party: Party::new(alloc, count)?,
            older: Vec::new(alloc),
            starts: Vec::new(alloc),
            submitted: 0,
        })
    }

    /// Carries out a line, and returns its answer.
    fn line(&mut self, line: &str) -> Result<String> {
        let words = &mut Words::new(line);
        let shown = match words.next() {
            "tick" => self.party.tick(words.number()?)?,
            "crash" => {
                let node = NodeId(words.number()?);
                self.party.step(Event::Crash { node })?
            }
            "publish" => self.publish(words, true)?,
            "add" => self.publish(words, false)?,
            "flush" => {
                let node = NodeId(words.number()?);
                self.party.step(Event::Flush { node })?
            }
            "notice" => self.notice(words)?,
            "deliver" => self.party.deliver(words.number()?)?,
            "lose" => {
                let place = words.number()?;
                self.party.step(Event::Lose { place })?
            }
            "copy" => {
                let place = words.number()?;
                self.party.step(Event::Copy { place })?
            }
            word => return self.many_events(word, words),
        };
        text(self.alloc, &shown)
    }

    /// Carries out a line of many events, which has no answer, or one that asks.
    fn many_events(&mut self, word: &str, words: &mut Words) -> Result<String> {
        match word {
            "group" => *self = Stage::new(self.alloc, words.number()?)?,
            "disk" => self.add_start(words)?,
            "open" => return self.open(words.number()?),
            "to" => self.deliver_to(words.number()?)?,
            "drop" => self.party.lose_all()?,
            "write" => {
                self.write(words.number()?)?;
            }
            "settle" => self.settle()?,
            "restart" => return self.restart(words.number()?, words.number()?),
            "state" => return self.state(),
            "audit" => return terms(self.alloc, self.party.audit()),
            "log" => return self.log(words.number()?),
            "bag" => return self.bag(),
            _ => bail!("no such line"),
        }
        Ok(String::new(self.alloc))
    }

    fn add_start(&mut self, words: &mut Words) -> Result<()> {
        let (term, vote) = (words.number()?, words.number()?);
        let log = words.numbers(self.alloc)?;
        self.starts.push(Start { term, vote, log })?;
        Ok(())
    }

    /// A group over the disks that were told, whether or not they support its audit.
    fn open(&mut self, audited: usize) -> Result<String> {
        let starts = mem::replace(&mut self.starts, Vec::new(self.alloc));
        let audit = starts.first().and_then(|start| start.log.get(..audited));
        let supported = are_supported(audit.context("no such entries")?, &starts);
        *self = Stage {
            party: starts::open(self.alloc, &starts, audited, FULL)?,
            ..Stage::new(self.alloc, 1)?
        };
        let answer = if supported {
            "supported"
        } else {
            "not supported"
        };
        Ok(String::from_str(self.alloc, answer)?)
    }

    /// Commands reach a member, each at the time that is its number, and are sent at once or not. The outcome of
    /// the last one.
    fn publish(&mut self, words: &mut Words, sent: bool) -> Result<Shown> {
        let node = words.number()?;
        let counts: Vec<u64> = words.numbers(self.alloc)?;
        let count = counts.first().copied().unwrap_or(1);
        let size = counts.get(1).copied().unwrap_or(0) as usize;
        let mut shown = None;
        for _ in 0..count {
            self.submitted += 1;
            shown = Some(self.party.publish(node, self.submitted, size, sent)?);
        }
        shown.context("no command")
    }

    /// A member learns that its log is durable, up to what its disk holds or up to an op.
    fn notice(&mut self, words: &mut Words) -> Result<Shown> {
        let node = words.number()?;
        match words.rest() {
            "" => self.party.notice(node),
            _ => self.party.notice_op(node, words.number()?),
        }
    }

    /// All ops of a member that wait are written to its disk. How many they were.
    fn write(&mut self, node: u8) -> Result<u32> {
        let mut written = 0;
        while self.party.write(node)? {
            let disk = self.party.disk(node)?.copy(self.alloc)?;
            self.older.push((node, disk))?;
            written += 1;
        }
        Ok(written)
    }

    /// All messages that are on their way to a member, at this moment, reach it.
    fn deliver_to(&mut self, node: u8) -> Result<()> {
        let mut place = 1;
        for _ in 0..self.party.messages() {
            if self.party.receiver(place) == Some(NodeId(node)) {
                self.party.deliver(place)?;
            } else {
                place += 1;
            }
        }
        Ok(())
    }

    /// Messages reach their members, and ops are written and noticed, until nothing is left.
    fn settle(&mut self) -> Result<()> {
        for _ in 0..ROUNDS {
            let mut done = self.party.deliver_all()?;
            for node in 1..=self.party.count {
                done += self.write(node)?;
                self.party.notice(node)?;
            }
            if done == 0 {
                return Ok(());
            }
        }
        bail!("messages don't end")
    }

    /// A member that is down restarts over its disk as it was when an op was the last on it, or over a new one
    /// for op 0.
    fn restart(&mut self, node: u8, op: u64) -> Result<String> {
        let mut disk = Disk::new(self.alloc);
        if op > 0 {
            let held = self.older.iter().rev();
            let mut held = held.filter(|(owner, held)| *owner == node && held.op() == op);
            let (_, held) = held
                .next()
                .context("the disk never held that op as its last")?;
            disk = held.copy(self.alloc)?;
        }
        match self.party.restart(node, disk)? {
            Some((noticed, found)) => {
                Ok(format!(in self.alloc; "lost: noticed {noticed}, found {found}")?)
            }
            None => Ok(String::new(self.alloc)),
        }
    }

    fn state(&self) -> Result<String> {
        let mut text = String::new(self.alloc);
        for number in 1..=self.party.count {
            let Some(state) = self.party.member(number) else {
                writeln!(text, "{number} is down")?;
                continue;
            };
            let role = match state.role {
                Role::Leader => "leads",
                Role::Candidate => "stands",
                Role::Follower => "follows",
            };
            let (term, last, commit) = (state.term.0, state.last.0, state.commit.0);
            writeln!(
                text,
                "{number} {role} in term {term}, last {last}, commit {commit}"
            )?;
        }
        Ok(text)
    }

    /// The terms of a member's entries, in order.
    fn log(&self, node: u8) -> Result<String> {
        let state = self.party.member(node).context("the member is down")?;
        let entries = self.party.entries(node, 1, state.last.0)?;
        terms(self.alloc, entries.as_slice())
    }

    /// Whom the messages are for, in order.
    fn bag(&self) -> Result<String> {
        let mut text = String::from_str(self.alloc, "for")?;
        for place in 1..=self.party.messages() {
            if let Some(receiver) = self.party.receiver(place) {
                write!(text, " {}", receiver.0)?;
            }
        }
        Ok(text)
    }
}

pub fn run(rt: HostRuntime) -> Result<()> {
    let mut stage = Stage::new(rt.alloc(), 1)?;
    answer_lines(rt, |line| stage.line(line))
}
