//! Cases of the log's writer: what a log of queues 1 and 2 answers. The lines are
//!
//! - `log CALLS..`: a new log, on a disk that fails at calls of these numbers;
//! - `gather QUEUE COUNT SIZE`: the queue's next op, which publishes COUNT messages with bodies of 65,536
//!   bytes, and then one with a body of SIZE bytes; `many COUNT`: COUNT ops of queue 1 with empty bodies;
//! - `append`, `sync`, and `roll`, which syncs before it;
//! - `size FILE`: how long a log file is; `entries QUEUE FILE`: which entries of a queue lie in it.

use crate::files::log_file;
use anyhow::{Context, Result, bail};
use cases::{Words, answer_lines};
use qq_base::{Bytes, Index, NodeId, QueueId, SessionId, Term, Text};
use qq_command::{BODY_LIMIT, Command, Content, Deaths, Entries, Entry, Message, Shared, Stamp};
use qq_disk::NodeDisk;
use qq_log::Op;
use qq_mem_disk::MemDisk;
use qq_wal::{FileRanges, Wal, WalFault};
use qq_wal_record::Header;
use std::alloc::Global;
use std::fmt::Display;

/// Queues 1 and 2.
pub const QUEUES: [QueueId; 2] = [QueueId(1), QueueId(2)];

/// A log of queues 1 and 2 without ops, which begins with a file of this number, on a disk in memory that fails
/// at calls of these numbers. A file is full at `log_bytes` bytes.
pub fn begin(alloc: Global, file: u64, fails: Vec<u64>, log_bytes: u64) -> Result<Wal<MemDisk>> {
    let header = Header {
        file,
        previous: 0,
        good: 0,
    };
    let mut disk = MemDisk::new(alloc);
    disk.fail_calls(fails);
    let queues = Vec::from_slice(alloc, &QUEUES)?;
    let ranges = FileRanges::new(alloc, &QUEUES)?;
    let begun = Wal::begin(disk, alloc, queues, header, &[], &[], &ranges, log_bytes);
    Ok(begun.map_err(|(fault, _)| fault)?)
}

/// Where a queue stands once all that was gathered is appended.
#[derive(Clone, Copy)]
struct Line {
    /// The number of its last op.
    op: u64,
    /// The index of its last entry.
    last: u64,
}

/// A log of queues 1 and 2, which is handed their ops in order.
#[derive(Drop)]
struct Fed {
    wal: Wal<MemDisk>,
    lines: [Line; 2],
}

/// An entry that publishes a message with a body of `size` bytes.
fn publish(alloc: Global, size: usize) -> Result<Entry> {
    let content = Content {
        body: Bytes::from_vec(vec![in alloc; b'x'; size]?),
        key: Text::new(alloc),
        deaths: Deaths::new(alloc),
    };
    let stamp = Stamp {
        session: SessionId::client(1),
        seq: 1,
        done: 0,
    };
    let command = Command::Enqueue {
        stamp,
        origin: None,
        message: Message::new(alloc, content)?,
    };
    Ok(Entry {
        term: Term(1),
        time: 0,
        command: Shared::new(alloc, command)?,
    })
}

impl Fed {
    fn new(alloc: Global, fails: Vec<u64>) -> Result<Fed> {
        Ok(Fed {
            wal: begin(alloc, 1, fails, u64::MAX)?,
            lines: [Line { op: 0, last: 0 }; 2],
        })
    }

    /// Hands a queue's next op to the log: `longest` entries whose bodies are as long as possible, and one with
    /// a body of `size` bytes.
    fn gather(
        &mut self,
        alloc: Global,
        queue: u32,
        longest: u64,
        size: usize,
    ) -> Result<Result<(), WalFault>> {
        let place = QUEUES.iter().position(|known| known.0 == queue);
        let line = &mut self.lines[place.context("no such queue")?];
        let mut entries = Entries::new(alloc);
        for _ in 0..longest {
            entries.push(publish(alloc, BODY_LIMIT)?)?;
        }
        entries.push(publish(alloc, size)?)?;
        let next = Line {
            op: line.op + 1,
            last: line.last + entries.len() as u64,
        };
        let op = Op::Change {
            queue: QueueId(queue),
            op: next.op,
            term: Term(1),
            vote: Some(NodeId(1)),
            keep: Index(line.last),
            entries,
        };
        if let Err((fault, _)) = self.wal.gather(op) {
            return Ok(Err(fault));
        }
        *line = next;
        Ok(Ok(()))
    }

    fn gather_many(&mut self, alloc: Global, count: u64) -> Result<Result<(), WalFault>> {
        for _ in 0..count {
            if let Err(fault) = self.gather(alloc, 1, 0, 0)? {
                return Ok(Err(fault));
            }
        }
        Ok(Ok(()))
    }

    /// Syncs what was appended, and begins a new file.
    fn roll(&mut self, alloc: Global) -> Result<u64, WalFault> {
        self.wal.sync_batch(alloc)?;
        self.wal.roll(alloc)
    }

    /// A line for each queue of which ops were synced.
    fn sync(&mut self, alloc: Global) -> Result<String> {
        let notices = match self.wal.sync_batch(alloc) {
            Ok(notices) => notices,
            Err(fault) => return Ok(format!(in alloc; "{fault}")?),
        };
        let mut text = String::new(alloc);
        for notice in &notices {
            writeln!(
                text,
                "queue {}: op {}, term {}, entries {} to {}",
                notice.queue.0, notice.op, notice.term.0, notice.first.0, notice.last.0
            )?;
        }
        Ok(text)
    }

    fn entries(&self, alloc: Global, queue: u32, file: u64) -> Result<String> {
        match self.wal.in_file(QueueId(queue), file) {
            Some((first, last)) => Ok(format!(in alloc; "entries {} to {}", first.0, last.0)?),
            None => Ok(String::from_str(alloc, "no entries")?),
        }
    }

    /// Carries out a line, and returns its answer.
    fn line(&mut self, alloc: Global, line: &str) -> Result<String> {
        let words = &mut Words::new(line);
        match words.next() {
            "log" => {
                *self = Fed::new(alloc, words.numbers(alloc)?)?;
                Ok(String::new(alloc))
            }
            "gather" => {
                let (queue, longest) = (words.number()?, words.number()?);
                let gathered = self.gather(alloc, queue, longest, words.number()?)?;
                text(alloc, "gathered", gathered.map(|()| ""))
            }
            "many" => {
                let gathered = self.gather_many(alloc, words.number()?)?;
                text(alloc, "gathered", gathered.map(|()| ""))
            }
            "append" => text(alloc, "appended ", self.wal.append_batch(alloc)),
            "sync" => self.sync(alloc),
            "roll" => text(alloc, "file ", self.roll(alloc)),
            "size" => {
                let size = self.wal.disk().size(alloc, log_file(words.number()?))?;
                Ok(format!(in alloc; "{size} bytes")?)
            }
            "entries" => self.entries(alloc, words.number()?, words.number()?),
            _ => bail!("no such line"),
        }
    }
}

/// A word and what a call answered, or why it failed.
fn text<T: Display + Drop>(
    alloc: Global,
    word: &str,
    answer: Result<T, WalFault>,
) -> Result<String> {
    match answer {
        Ok(value) => Ok(format!(in alloc; "{word}{value}")?),
        Err(fault) => Ok(format!(in alloc; "{fault}")?),
    }
}

pub fn run(rt: HostRuntime) -> Result<()> {
    let alloc = rt.alloc();
    let mut fed = Fed::new(alloc, Vec::new(alloc))?;
    answer_lines(rt, |line| fed.line(alloc, line))
}
