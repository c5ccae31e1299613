//! What recovery gives after each cut of what waits for a sync, and after a stop at each call of the disk.

use crate::lanes::recovered_lanes;
use anyhow::{Result, bail, ensure};
use qq_base::{Bytes, QueueId};
use qq_disk::{FileName, Image, NodeDisk, Tail};
use qq_mem_disk::MemDisk;
use qq_recover::{RecoverFault, recover};
use std::alloc::Global;

/// More calls than any recovery of the cases makes.
const MOST_CALLS: u64 = 1000;

/// The files that recovery begins have fewer bytes.
const LONGEST: u64 = 200;

/// Bytes that were added to a file.
#[derive(Drop)]
struct Piece {
    file: FileName,
    bytes: Vec<u8>,
    synced: bool,
}

impl Piece {
    fn write(&self, alloc: Global, disk: &mut MemDisk) -> Result<()> {
        disk.append(alloc, self.file, &self.bytes)?;
        if self.synced {
            disk.sync(alloc, self.file)?;
        }
        Ok(())
    }
}

/// All that was written to a disk, so that the disk can be made again.
#[derive(Drop)]
pub struct Written {
    pieces: Vec<Piece>,
}

impl Written {
    /// A disk to which nothing was written.
    pub fn new(alloc: Global) -> Self {
        Written {
            pieces: Vec::new(alloc),
        }
    }

    /// Bytes more, which are synced or wait for a sync.
    pub fn add(&mut self, file: FileName, bytes: Vec<u8>, synced: bool) -> Result<()> {
        self.pieces.push(Piece {
            file,
            bytes,
            synced,
        })?;
        Ok(())
    }

    /// Writes what was added last to a disk.
    pub fn write_last(&self, alloc: Global, disk: &mut MemDisk) -> Result<()> {
        match self.pieces.last() {
            Some(piece) => piece.write(alloc, disk),
            None => Ok(()),
        }
    }

    /// A disk with all that was written.
    fn disk(&self, alloc: Global) -> Result<MemDisk> {
        let mut disk = MemDisk::new(alloc);
        for piece in &self.pieces {
            piece.write(alloc, &mut disk)?;
        }
        Ok(disk)
    }

    /// How many bytes wait for a sync.
    fn waiting(&self) -> u64 {
        let waiting = self.pieces.iter().filter(|piece| !piece.synced);
        waiting.map(|piece| piece.bytes.len() as u64).sum()
    }
}

fn junk(alloc: Global) -> Result<Tail> {
    Ok(Tail::Junk(Bytes::from_vec(vec![in alloc; 255; 1000]?)))
}

/// What a crash leaves of a disk, with this tail of what waits for a sync.
fn crash(alloc: Global, disk: MemDisk, tail: Tail) -> Result<MemDisk> {
    let image = Image {
        newest_log: tail,
        others: Tail::Cut(0),
        removed_back: false,
    };
    Ok(disk.crash(alloc, &image)?)
}

/// The lanes after each cut of what waits for a sync, where they differ from those before, and then those with
/// other bytes in its place.
pub fn cuts(alloc: Global, written: &Written, queues: &[QueueId]) -> Result<String> {
    let mut text = String::new(alloc);
    let mut before = String::new(alloc);
    for count in 0..=written.waiting() {
        let disk = crash(alloc, written.disk(alloc)?, Tail::Cut(count))?;
        let lanes = recovered_lanes(alloc, disk, queues)?;
        if lanes != before {
            write!(text, "from {count} bytes on:\n{lanes}")?;
            before = lanes;
        }
    }
    let disk = crash(alloc, written.disk(alloc)?, junk(alloc)?)?;
    write!(
        text,
        "other bytes:\n{}",
        recovered_lanes(alloc, disk, queues)?
    )?;
    Ok(text)
}

/// A disk's recovery, which may be stopped by the disk.
#[derive(Clone, Copy)]
struct Recovery<'a> {
    alloc: Global,
    written: &'a Written,
    queues: &'a [QueueId],
    /// The lanes that each recovery has to give.
    wanted: &'a str,
}

impl Recovery<'_> {
    /// The disk, if it stops a recovery. None if the recovery ends.
    fn stopped_by(self, disk: MemDisk) -> Option<MemDisk> {
        match recover(disk, self.alloc, self.queues, 1000) {
            Err((RecoverFault::Disk, disk)) => Some(disk),
            _ => None,
        }
    }

    /// The disk, if it stops a recovery when all calls fail after this many.
    fn stopped_after(self, mut disk: MemDisk, calls: u64) -> Option<MemDisk> {
        disk.fuse(calls);
        self.stopped_by(disk)
    }

    /// The disk, if it stops a recovery when one call fails after this many.
    fn failed_after(self, mut disk: MemDisk, calls: u64) -> Result<Option<MemDisk>> {
        let failing = disk.calls() + calls + 1;
        disk.fail_calls(vec![in self.alloc; failing]?);
        Ok(self.stopped_by(disk))
    }

    fn check_lanes(self, disk: MemDisk) -> Result<()> {
        let lanes = recovered_lanes(self.alloc, disk, self.queues)?;
        ensure!(
            lanes.as_str() == self.wanted,
            "a recovery gives other lanes"
        );
        Ok(())
    }

    /// What a crash leaves after a recovery that is stopped after `calls` calls: `choice` bytes of what waits
    /// for a sync, or, for the two greatest choices, all of it and others. None if the recovery ends.
    fn crashed(self, calls: u64, choice: u64) -> Result<Option<MemDisk>> {
        let tail = match choice {
            0..LONGEST => Tail::Cut(choice),
            LONGEST => Tail::Whole,
            _ => junk(self.alloc)?,
        };
        match self.stopped_after(self.written.disk(self.alloc)?, calls) {
            Some(disk) => Ok(Some(crash(self.alloc, disk, tail)?)),
            None => Ok(None),
        }
    }

    /// Stops a second recovery at each of its calls, and checks the lanes of a third one.
    fn stop_again(self, calls: u64, choice: u64) -> Result<()> {
        for more in 0..MOST_CALLS {
            let Some(disk) = self.crashed(calls, choice)? else {
                return Ok(());
            };
            let Some(disk) = self.stopped_after(disk, more) else {
                return Ok(());
            };
            self.check_lanes(crash(self.alloc, disk, Tail::Whole)?)?;
        }
        bail!("a recovery makes too many calls")
    }

    /// Whether a recovery is stopped after this many calls. Then it has to give the lanes after each crash, and
    /// also where only one call failed.
    fn stops_after(self, calls: u64) -> Result<bool> {
        let Some(disk) = self.failed_after(self.written.disk(self.alloc)?, calls)? else {
            return Ok(false);
        };
        self.check_lanes(disk)?;
        for choice in 0..LONGEST + 2 {
            let Some(disk) = self.crashed(calls, choice)? else {
                return Ok(false);
            };
            self.check_lanes(disk)?;
            if choice == 0 || choice >= LONGEST {
                self.stop_again(calls, choice)?;
            }
        }
        Ok(true)
    }
}

/// How many calls of a recovery the disk can stop, each with the same lanes afterwards.
pub fn stops(alloc: Global, written: &Written, queues: &[QueueId]) -> Result<String> {
    ensure!(written.waiting() == 0, "all has to be synced");
    let wanted = recovered_lanes(alloc, written.disk(alloc)?, queues)?;
    let recovery = Recovery {
        alloc,
        written,
        queues,
        wanted: wanted.as_str(),
    };
    for calls in 0..MOST_CALLS {
        if !recovery.stops_after(calls)? {
            return Ok(format!(in alloc; "{calls} calls, and the same lanes after a stop at each")?);
        }
    }
    bail!("recovery makes too many calls")
}
