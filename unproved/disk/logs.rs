//! Cases of log files: what recovery reads of them, queue by queue. The lines are
//!
//! - `disk`: a new disk, empty;
//! - `log N BYTES`: the bytes, in hexadecimal digits, are added to log file N and synced;
//! - `waiting N BYTES`: the same, but these bytes wait for a sync;
//! - `lanes QUEUE..`: what recovery reads of the disk where these queues are listed, and changes nothing;
//! - `recover QUEUE..`: recovery of the disk: the lanes that it gives, which log files have entries of which
//!   queue, the file that it begins, and those that it removes;
//! - `dump`: what a dump writes of the disk;
//! - `cuts QUEUE..`: the lanes that recovery gives after a crash that leaves the first K bytes of those that
//!   wait for a sync, for each K, printed where they change, and after one that leaves other bytes there;
//! - `stops QUEUE..`: recovery of the disk as it was written, where each call of the disk in turn fails
//!   alone, and where the disk stops at that call. After a stop comes a crash, which leaves each possible
//!   number of the bytes that wait for a sync, all of them, or others, and a second recovery. Where the crash
//!   left none, all or others, the second recovery is stopped at each of its calls too, before a third. Each
//!   recovery that isn't stopped has to give the same lanes.
//!
//! A queue's lane is printed as the number of its last op, its term and vote, and the terms of its entries. A
//! queue without ops has none.
//!
//! With the words `FOLDER QUEUE..` it prints the lanes that recovery reads of a disk in a folder, with a file
//! for each log, as `00000000000000000001.log`. It changes nothing there.

use crate::dumps::dumped;
use crate::files::log_file;
use crate::lanes::{inspected, recovered_log};
use crate::stops::{Written, cuts, stops};
use anyhow::{Context, Result, bail};
use cases::{Words, answer_lines};
use qq_base::QueueId;
use qq_dir_disk::DirDisk;
use qq_mem_disk::MemDisk;
use std::alloc::Global;
use std::mem;

/// A disk whose log files are given as text.
#[derive(Drop)]
struct Images {
    disk: MemDisk,
    written: Written,
}

fn queues(words: &mut Words, alloc: Global) -> Result<Vec<QueueId>> {
    let numbers: Vec<u32> = words.numbers(alloc)?;
    Ok(numbers.into_iter().map(QueueId).collect(alloc)?)
}

/// The bytes of hexadecimal digits, which may have blanks between them.
pub fn bytes_of(alloc: Global, digits: &str) -> Result<Vec<u8>> {
    let digits: String = digits.split_whitespace().collect(alloc)?;
    Ok(hex::decode(alloc, digits.as_str())?)
}

impl Images {
    /// An empty disk.
    fn new(alloc: Global) -> Self {
        Images {
            disk: MemDisk::new(alloc),
            written: Written::new(alloc),
        }
    }

    /// Carries out a line, and returns its answer.
    fn line(&mut self, alloc: Global, line: &str) -> Result<String> {
        let words = &mut Words::new(line);
        match words.next() {
            "disk" => *self = Images::new(alloc),
            "log" => self.add(alloc, words, true)?,
            "waiting" => self.add(alloc, words, false)?,
            "lanes" => return inspected(alloc, &mut self.disk, &queues(words, alloc)?),
            "dump" => return dumped(alloc, &mut self.disk),
            "recover" => return self.recover(alloc, &queues(words, alloc)?),
            "cuts" => return cuts(alloc, &self.written, &queues(words, alloc)?),
            "stops" => return stops(alloc, &self.written, &queues(words, alloc)?),
            _ => bail!("no such line"),
        }
        Ok(String::new(alloc))
    }

    fn recover(&mut self, alloc: Global, queues: &[QueueId]) -> Result<String> {
        let disk = mem::replace(&mut self.disk, MemDisk::new(alloc));
        let (text, disk) = recovered_log(alloc, disk, queues)?;
        self.disk = disk;
        Ok(text)
    }

    /// Adds bytes to a log file, which are synced or wait for a sync.
    fn add(&mut self, alloc: Global, words: &mut Words, synced: bool) -> Result<()> {
        let file = log_file(words.number()?);
        let bytes = bytes_of(alloc, words.rest())?;
        self.written.add(file, bytes, synced)?;
        self.written.write_last(alloc, &mut self.disk)
    }
}

fn run_folder(rt: HostRuntime, folder: &str, queues: &[String]) -> Result<()> {
    let alloc = rt.alloc();
    let queues: Vec<QueueId> = queues
        .iter()
        .map(|word| -> Result<QueueId> {
            Ok(QueueId(word.as_str().parse().context("a queue's number is wanted")?))
        })
        .try_collect(alloc)?;
    let mut disk = DirDisk::new(rt, alloc, String::from_str(alloc, folder)?);
    print!(rt; "{}", inspected(alloc, &mut disk, &queues)?)?;
    Ok(())
}

pub fn run(rt: HostRuntime, words: &[String]) -> Result<()> {
    if let [folder, queues @ ..] = words {
        return run_folder(rt, folder.as_str(), queues);
    }
    let mut images = Images::new(rt.alloc());
    answer_lines(rt, |line| images.line(rt.alloc(), line))
}
