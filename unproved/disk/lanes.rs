//! What recovery reads and gives, in lines.

use crate::files::log_file;
use anyhow::{Result, bail};
use qq_base::{Memory, QueueId};
use qq_disk::{FileKind, FileName, NodeDisk};
use qq_log::Lane;
use qq_mem_disk::MemDisk;
use qq_recover::{RecoverFault, Recovered, inspect, recover};
use qq_wal::Wal;
use qq_wal_record::read_header;
use std::alloc::Global;
use std::fmt;

/// The length at which a log file that recovery begins is full.
const LOG_BYTES: u64 = 1000;

/// A lane as the number of its last op, its term and vote, and the terms of its entries.
#[derive(Clone, Copy)]
struct Line<'a>(&'a Lane);

impl fmt::Display for Line<'_> {
    fn fmt<W: fmt::Write>(&self, f: &mut fmt::Formatter<W>) -> fmt::Result {
        let lane = self.0;
        write!(
            f,
            "queue {}: op {}, term {}, ",
            lane.queue.0, lane.op, lane.term.0
        )?;
        match lane.vote {
            Some(node) => write!(f, "vote {}, ", node.0)?,
            None => f.write_str("no vote, ")?,
        }
        if lane.entries.is_empty() {
            return f.write_str("no entries");
        }
        f.write_str("entries of terms")?;
        for entry in lane.entries.as_slice() {
            write!(f, " {}", entry.term.0)?;
        }
        Ok(())
    }
}

/// A line for each lane, or that there is none.
fn lines(alloc: Global, lanes: &[Lane]) -> Result<String> {
    let mut text = String::new(alloc);
    for lane in lanes {
        writeln!(text, "{}", Line(lane))?;
    }
    if lanes.is_empty() {
        text.push_str("no lanes\n")?;
    }
    Ok(text)
}

fn fault_line(alloc: Global, fault: RecoverFault) -> Result<String> {
    Ok(match fault {
        RecoverFault::Disk => String::from_str(alloc, "the disk failed\n")?,
        RecoverFault::Memory(Memory::Want) => String::from_str(alloc, "out of memory\n")?,
        RecoverFault::Memory(Memory::Spent { number }) => {
            format!(in alloc; "the number {number} is at its end\n")?
        }
        RecoverFault::Damaged { file, place } => {
            format!(in alloc; "log {} is damaged at {place}\n", file.number)?
        }
        RecoverFault::Version { file, byte } => {
            format!(in alloc; "log {} has version {byte}\n", file.number)?
        }
    })
}

/// A line for each lane that recovery reads of a disk, or for why it reads none.
pub fn inspected<D: NodeDisk>(alloc: Global, disk: &mut D, queues: &[QueueId]) -> Result<String> {
    match inspect(disk, alloc, queues) {
        Ok(found) => lines(alloc, &found),
        Err(fault) => fault_line(alloc, fault),
    }
}

/// A line for each lane that recovery hands out, or that there is none.
fn handed_out(
    alloc: Global,
    recovered: &mut Recovered<MemDisk>,
    queues: &[QueueId],
) -> Result<String> {
    let lanes: Vec<Lane> = queues
        .iter()
        .filter_map(|queue| recovered.lane(alloc, *queue))
        .collect(alloc)?;
    lines(alloc, &lanes)
}

/// A line for each lane that recovery gives, or one for why it gives none.
pub fn recovered_lanes(alloc: Global, disk: MemDisk, queues: &[QueueId]) -> Result<String> {
    match recover(disk, alloc, queues, LOG_BYTES) {
        Ok(mut recovered) => handed_out(alloc, &mut recovered, queues),
        Err((fault, _)) => fault_line(alloc, fault),
    }
}

/// The lines of `recovered_lanes`, and then one for each log file that has entries of a queue, one for the file
/// that recovery begins, and one for each file that it removes; and the disk.
pub fn recovered_log(
    alloc: Global,
    mut disk: MemDisk,
    queues: &[QueueId],
) -> Result<(String, MemDisk)> {
    let before = disk.names(alloc)?;
    match recover(disk, alloc, queues, LOG_BYTES) {
        Ok(mut recovered) => {
            let mut text = handed_out(alloc, &mut recovered, queues)?;
            let mut wal = recovered.into_wal();
            add_ranges(alloc, &mut text, &mut wal, queues)?;
            add_newest(alloc, &mut text, wal.disk())?;
            add_removed(alloc, &mut text, &before, wal.disk())?;
            Ok((text, wal.into_disk()))
        }
        Err((fault, disk)) => Ok((fault_line(alloc, fault)?, disk)),
    }
}

/// Adds a line for each log file that has entries of a queue.
fn add_ranges(
    alloc: Global,
    text: &mut String,
    wal: &mut Wal<MemDisk>,
    queues: &[QueueId],
) -> Result<()> {
    let names = wal.disk().names(alloc)?;
    for queue in queues {
        for name in names.iter().filter(|name| name.kind == FileKind::Log) {
            if let Some((first, last)) = wal.in_file(*queue, name.number) {
                writeln!(
                    text,
                    "log {} has entries {} to {} of queue {}",
                    name.number, first.0, last.0, queue.0
                )?;
            }
        }
    }
    Ok(())
}

/// Adds a line for each log file that is there no more.
fn add_removed(
    alloc: Global,
    text: &mut String,
    before: &[FileName],
    disk: &mut MemDisk,
) -> Result<()> {
    let names = disk.names(alloc)?;
    for name in before.iter().filter(|name| !names.contains(name)) {
        writeln!(text, "log {} is removed", name.number)?;
    }
    Ok(())
}

/// Adds a line for the log file of greatest number: its length, and what its header names.
fn add_newest(alloc: Global, text: &mut String, disk: &mut MemDisk) -> Result<()> {
    let newest = disk
        .names(alloc)?
        .iter()
        .filter(|name| name.kind == FileKind::Log)
        .map(|name| name.number)
        .max()
        .unwrap_or(0);
    let size = disk.size(alloc, log_file(newest))?;
    let mut front = [0; 38];
    disk.read(alloc, log_file(newest), 0, &mut front)?;
    let Ok(header) = read_header(&front) else {
        bail!("the new file has no header");
    };
    writeln!(
        text,
        "log {} of {size} bytes is begun, behind {} bytes of log {}",
        header.file, header.good, header.previous
    )?;
    Ok(())
}
