//! A group with the disks of its members.

use crate::counting::Counting;
use crate::disk::{Disk, QUEUE};
use anyhow::{Context, Result, ensure};
use qq_base::{Bytes, Duplicate, Index, NodeId, SessionId, Text};
use qq_entry::{Command, Content, Deaths, Entries, Entry, Message, Stamp};
use qq_group::{Event, Group, RestartFault, Shown};
use qq_log::Log;
use qq_raft_msg::MemberState;
use std::alloc::Global;

/// A group, whose members are nodes 1 to `count`.
#[derive(Drop)]
pub struct Party {
    pub count: u8,
    alloc: Global,
    group: Group<Counting, Log>,
    disks: Vec<Disk>,
}

/// A group that goes on with its audit over the disks of its members.
fn open(alloc: Global, audit: Entries, disks: &[Disk]) -> Result<Group<Counting, Log>> {
    let mut nodes = Vec::new(alloc);
    let mut starts = Vec::new(alloc);
    for (before, disk) in disks.iter().enumerate() {
        let node = NodeId(before as u8 + 1);
        nodes.push(node)?;
        starts.push((node, Some((Counting::new(), disk.log(alloc)?))))?;
    }
    Ok(Group::resume(alloc, QUEUE, &nodes, audit, starts)?)
}

/// A command that publishes a message with a body of `size` bytes.
pub fn publish(alloc: Global, size: usize) -> Result<Command> {
    let content = Content {
        body: Bytes::from_vec(vec![in alloc; b'x'; size]?),
        key: Text::new(alloc),
        deaths: Deaths::new(alloc),
    };
    let stamp = Stamp {
        session: SessionId::client(1),
        seq: 1,
        done: 0,
    };
    Ok(Command::Enqueue {
        stamp,
        origin: None,
        message: Message::new(alloc, content)?,
    })
}

impl Party {
    /// A group of 1, 3, 5 or 7 members with new disks.
    pub fn new(alloc: Global, count: u8) -> Result<Party> {
        ensure!(
            matches!(count, 1 | 3 | 5 | 7),
            "a group has 1, 3, 5 or 7 members"
        );
        let mut disks = Vec::new(alloc);
        for _ in 0..count {
            disks.push(Disk::new(alloc))?;
        }
        Ok(Party {
            count,
            alloc,
            group: open(alloc, Entries::new(alloc), &disks)?,
            disks,
        })
    }

    /// A group over these disks, which goes on with an audit of the first disk's first entries.
    pub fn over(alloc: Global, disks: Vec<Disk>, audited: usize) -> Result<Party> {
        let first = disks.first().context("no disk")?;
        let audited = first
            .entries()
            .get(..audited)
            .context("an entry is missing")?;
        let audit: Vec<Entry> = audited
            .iter()
            .map(|entry| entry.copy(alloc))
            .try_collect(alloc)?;
        Ok(Party {
            count: disks.len() as u8,
            alloc,
            group: open(alloc, Entries::from_vec(audit), &disks)?,
            disks,
        })
    }

    /// All members crash, and start again over their disks as they stand. What is on its way is lost.
    pub fn reopen(&mut self) -> Result<()> {
        let audit: Vec<Entry> = self
            .audit()
            .iter()
            .map(|entry| entry.copy(self.alloc))
            .try_collect(self.alloc)?;
        self.group = open(self.alloc, Entries::from_vec(audit), &self.disks)?;
        Ok(())
    }

    /// What a member's disk holds.
    pub fn disk(&mut self, node: u8) -> Result<&mut Disk> {
        let place = usize::from(node).checked_sub(1).context("no such disk")?;
        self.disks.get_mut(place).context("no such disk")
    }

    /// A member that is down restarts over a disk, which is its own from here on. If the group knows that more
    /// was durable, it stays down: the op that was noticed, and the one that was found.
    pub fn restart(&mut self, node: u8, disk: Disk) -> Result<Option<(u64, u64)>> {
        ensure!(1 <= node && node <= self.count, "no such member");
        ensure!(self.member(node).is_none(), "the member is up");
        let log = disk.log(self.alloc)?;
        match self
            .group
            .restart(self.alloc, NodeId(node), Counting::new(), log)
        {
            Ok(()) => {
                *self.disk(node)? = disk;
                Ok(None)
            }
            Err(RestartFault::Lost { noticed, found }) => Ok(Some((noticed, found))),
            Err(fault) => Err(fault.into()),
        }
    }

    /// A member starts again over its disk as it stands, if it is down.
    pub fn start_again(&mut self, node: u8) -> Result<()> {
        if self.member(node).is_some() {
            return Ok(());
        }
        let alloc = self.alloc;
        let disk = self.disk(node)?.copy(alloc)?;
        ensure!(
            self.restart(node, disk)?.is_none(),
            "a disk lost what was written to it"
        );
        Ok(())
    }

    /// An event happens.
    pub fn step(&mut self, event: Event) -> Result<Shown> {
        Ok(self.group.step(self.alloc, event)?)
    }

    pub fn tick(&mut self, node: u8) -> Result<Shown> {
        self.step(Event::Tick { node: NodeId(node) })
    }

    /// A command that publishes a message with a body of `size` bytes reaches a member, and is sent at once or not.
    pub fn publish(&mut self, node: u8, time: u64, size: usize, sent: bool) -> Result<Shown> {
        let command = publish(self.alloc, size)?;
        let node = NodeId(node);
        if sent {
            self.step(Event::Submit {
                node,
                time,
                command,
            })
        } else {
            self.step(Event::Add {
                node,
                time,
                command,
            })
        }
    }

    /// The message at a place reaches its member.
    pub fn deliver(&mut self, place: u32) -> Result<Shown> {
        self.step(Event::Deliver { place })
    }

    /// A member learns that its log is durable up to an op.
    pub fn notice_op(&mut self, node: u8, op: u64) -> Result<Shown> {
        self.step(Event::Notice {
            node: NodeId(node),
            op,
        })
    }

    /// A member learns that its log is durable up to what is on its disk.
    pub fn notice(&mut self, node: u8) -> Result<Shown> {
        let op = self.disk(node)?.op();
        self.notice_op(node, op)
    }

    /// The next op of a member is written to its disk. Returns whether there was one.
    pub fn write(&mut self, node: u8) -> Result<bool> {
        let alloc = self.alloc;
        let Some(op) = self.group.waiting(NodeId(node)) else {
            return Ok(false);
        };
        self.disk(node)?.write(alloc, op)?;
        Ok(true)
    }

    /// All ops of a member that wait are written to its disk, at once.
    pub fn write_each(&mut self, node: u8) -> Result<Shown> {
        let alloc = self.alloc;
        for op in self.group.take_ops(alloc, NodeId(node))? {
            self.disk(node)?.write(alloc, op)?;
        }
        self.notice(node)
    }

    /// The next op of a member is given back, and so is the next one again.
    pub fn hesitate(&mut self, node: u8) -> Result<Shown> {
        for _ in 0..2 {
            let before = self.group.handed(NodeId(node));
            let Some(op) = self.group.waiting(NodeId(node)) else {
                break;
            };
            self.group.give_back(NodeId(node), op);
            ensure!(
                self.group.handed(NodeId(node)) == before,
                "an op isn't taken back"
            );
        }
        self.notice_op(node, 0)
    }

    /// All messages that are on their way reach their members. Returns how many they were.
    pub fn deliver_all(&mut self) -> Result<u32> {
        let count = self.messages();
        for _ in 0..count {
            self.deliver(1)?;
        }
        Ok(count)
    }

    /// All messages that are on their way are lost.
    pub fn lose_all(&mut self) -> Result<()> {
        for _ in 0..self.messages() {
            self.step(Event::Lose { place: 1 })?;
        }
        Ok(())
    }

    /// All ops of all members are written. Returns how many they were.
    pub fn write_all(&mut self) -> Result<u64> {
        let mut written = 0;
        for node in 1..=self.count {
            while self.write(node)? {
                written += 1;
            }
        }
        Ok(written)
    }

    /// All members learn what is durable on their disks.
    pub fn notice_all(&mut self) -> Result<()> {
        for node in 1..=self.count {
            self.notice(node)?;
        }
        Ok(())
    }

    /// The entries that were committed.
    pub fn audit(&self) -> &[Entry] {
        self.group.audit()
    }

    /// How many messages are on their way.
    pub fn messages(&self) -> u32 {
        self.group.messages()
    }

    /// Whom the message at a place, from 1, is for.
    pub fn receiver(&self, place: u32) -> Option<NodeId> {
        self.group.receiver(place)
    }

    /// A member's state. None if it is down.
    pub fn member(&self, node: u8) -> Option<MemberState> {
        self.group.member(NodeId(node))
    }

    /// Copies of a member's entries from one index to another.
    pub fn entries(&self, node: u8, first: u64, last: u64) -> Result<Entries> {
        self.group
            .entries(self.alloc, NodeId(node), Index(first), Index(last))?
            .context("a member lacks an entry that it knows to be committed")
    }
}
