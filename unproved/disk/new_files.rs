//! Checks of the log's writer where files and their numbers end.

use crate::files::log_file;
use crate::logs::bytes_of;
use crate::writer::begin;
use anyhow::{Result, ensure};
use cases::{Trials, run_each};
use qq_base::{Index, Memory, NUMBER_END, QueueId, Term};
use qq_command::Entries;
use qq_disk::{FileKind, NodeDisk};
use qq_log::Op;
use qq_mem_disk::MemDisk;
use qq_recover::recover;
use qq_wal::WalFault;
use std::alloc::Global;

/// File 1, which names no other.
const FIRST: &str = "51514c4f470100000000000000010000000000000000000000000000000052e411e63587068b";

/// File 2, which follows 38 bytes of file 1.
const SECOND: &str = "51514c4f47010000000000000002000000000000000100000000000000264aaf92ff3f163126";

/// The length at which a file is full.
const LOG_BYTES: u64 = 39;

fn a_new_file_names_the_old_one(rt: HostRuntime) -> Result<()> {
    let alloc = rt.alloc();
    let mut wal = begin(alloc, 1, Vec::new(alloc), LOG_BYTES)?;
    ensure!(!wal.full());
    ensure!(wal.roll(alloc) == Ok(2));
    let mut disk = wal.into_disk();
    for (number, digits) in [(1, FIRST), (2, SECOND)] {
        let mut bytes = [0; 64];
        let count = disk.read(alloc, log_file(number), 0, &mut bytes)?;
        ensure!(&bytes[..count] == bytes_of(alloc, digits)?.as_slice());
    }
    Ok(())
}

fn the_log_stops_where_the_disk_fails(rt: HostRuntime) -> Result<()> {
    let alloc = rt.alloc();
    let mut wal = begin(alloc, 1, vec![in alloc; 3]?, LOG_BYTES)?;
    ensure!(wal.roll(alloc) == Err(WalFault::Disk));
    ensure!(wal.append_batch(alloc) == Err(WalFault::Stopped));
    ensure!(wal.sync_batch(alloc).is_err());
    Ok(())
}

fn numbers_end(rt: HostRuntime) -> Result<()> {
    let alloc = rt.alloc();
    let mut wal = begin(alloc, NUMBER_END - 1, Vec::new(alloc), LOG_BYTES)?;
    ensure!(wal.fresh(FileKind::Segment) == Ok(1));
    ensure!(wal.fresh(FileKind::Segment) == Ok(2));
    ensure!(wal.fresh(FileKind::Log) == Ok(NUMBER_END));
    let spent = Memory::Spent { number: NUMBER_END };
    ensure!(wal.fresh(FileKind::Log) == Err(spent));
    ensure!(wal.roll(alloc) == Err(WalFault::Memory(spent)));
    Ok(())
}

/// An op without entries, of a queue of which it is the one of this number.
fn op(alloc: Global, queue: QueueId, number: u64) -> Op {
    Op::Change {
        queue,
        op: number,
        term: Term(1),
        vote: None,
        keep: Index(0),
        entries: Entries::new(alloc),
    }
}

/// A header of 38 bytes and 1,024 carries of 78 are more than the 65,536 bytes that make a file full. An op without
/// entries has 46 bytes, so a round of one for each queue adds 47,104.
fn a_file_of_many_carries_is_not_full(rt: HostRuntime) -> Result<()> {
    let alloc = rt.alloc();
    let mut queues = Vec::new(alloc);
    for number in 1..=1024 {
        queues.push(QueueId(number))?;
    }
    let begun = recover(MemDisk::new(alloc), alloc, queues.as_slice(), 65_536);
    let mut wal = begun.map_err(|(fault, _)| fault)?.into_wal();
    for (number, full) in [(1, false), (2, true)] {
        for queue in &queues {
            ensure!(wal.gather(op(alloc, *queue, number)).is_ok());
        }
        ensure!(wal.append_batch(alloc) == Ok(1024));
        ensure!(wal.sync_batch(alloc)?.len() == 1024);
        ensure!(wal.full() == full);
    }
    ensure!(wal.roll(alloc) == Ok(2));
    ensure!(!wal.full());
    let mut disk = wal.into_disk();
    ensure!(disk.size(alloc, log_file(2))? == 79_910);
    Ok(())
}

pub fn check(trials: &mut Trials) -> Result<()> {
    run_each!(
        trials;
        a_new_file_names_the_old_one,
        the_log_stops_where_the_disk_fails,
        numbers_end,
        a_file_of_many_carries_is_not_full,
    );
    Ok(())
}
