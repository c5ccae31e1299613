//! Writes ops to a node's log on a disk in memory.
//!
//! BATCHES batches of RECORDS ops each are gathered, appended and synced, each op with one entry, which publishes a
//! message with a body of BODY bytes. Prints how many ops of how many bytes that was, and how many nanoseconds
//! gathering, appending and syncing took, and SHA-256 of as many records by itself.
//!
//! With `recover`, LOGS logs of RECORDS such ops each are written, and then recovered. Prints how many ops of how many
//! bytes that was, and how many nanoseconds recovery took.
use crate::made::{entry, publish, stamp};
use crate::words::{number, word};
use anyhow::{Result, bail, ensure};
use qq_base::{Index, NodeId, QueueId, Term};
use qq_entry::Entries;
use qq_log::Op;
use qq_mem_disk::MemDisk;
use qq_recover::recover;
use qq_wal::{FileRanges, Wal};
use qq_wal_record::Header;
use sha2::{Digest, Sha256};
use std::alloc::Global;
use std::time::Instant;

/// The bytes of a record beside its message's body.
const BESIDE_BODY: usize = 104;

/// Nanoseconds that the calls of all batches took.
#[derive(Clone, Copy)]
struct Times {
    gather: u128,
    append: u128,
    sync: u128,
    sha: u128,
}

// A log of queue 1 on an empty disk, whose file is never full.
pub fn new_log(alloc: Global) -> Result<Wal<MemDisk>> {
    let mut queues = Vec::new(alloc);
    queues.push(QueueId(1))?;
    let ranges = FileRanges::new(alloc, &queues)?;
    let header = Header {
        file: 1,
        previous: 0,
        good: 0,
    };
    match Wal::begin(
        MemDisk::new(alloc),
        alloc,
        queues,
        header,
        &[],
        &[],
        &ranges,
        u64::MAX,
    ) {
        Ok(wal) => Ok(wal),
        Err((fault, _)) => Err(fault.into()),
    }
}

fn op_of(alloc: Global, number: u64, body: usize) -> Result<Op> {
    let mut entries = Entries::new(alloc);
    entries.push(entry(alloc, publish(alloc, stamp(number), body)?)?)?;
    Ok(Op::Change {
        queue: QueueId(1),
        op: number,
        term: Term(1),
        vote: Some(NodeId(1)),
        keep: Index(number - 1),
        entries,
    })
}

// The ops of a batch, which come behind so many.
fn batch(alloc: Global, before: u64, records: u64, body: usize) -> Result<Vec<Op>> {
    let mut ops = Vec::new(alloc);
    for number in before + 1..=before + records {
        ops.push(op_of(alloc, number, body)?)?;
    }
    Ok(ops)
}

fn write_batch(
    rt: HostRuntime,
    wal: &mut Wal<MemDisk>,
    ops: Vec<Op>,
    times: &mut Times,
) -> Result<()> {
    let start = Instant::now(&rt)?;
    for op in ops {
        if let Err((fault, _)) = wal.gather(op) {
            bail!("{fault}");
        }
    }
    let gathered = start.elapsed(&rt)?.as_nanos();
    wal.append_batch(rt.alloc())?;
    let appended = start.elapsed(&rt)?.as_nanos();
    wal.sync_batch(rt.alloc())?;
    let synced = start.elapsed(&rt)?.as_nanos();
    times.gather += gathered;
    times.append += appended - gathered;
    times.sync += synced - appended;
    Ok(())
}

// Nanoseconds of the digests of a batch's records, as their marks need them.
fn time_hashes(rt: HostRuntime, records: u64, record: &mut Vec<u8>) -> Result<u128> {
    let start = Instant::now(&rt)?;
    for number in 0..records {
        let mut hasher = Sha256::new();
        hasher.update(&number.to_be_bytes());
        hasher.update(record.as_slice());
        record[0] = hasher.finalize()[0];
    }
    Ok(start.elapsed(&rt)?.as_nanos())
}

// The disk of a log of so many ops, in batches of at most 256.
fn written(rt: HostRuntime, records: u64, body: usize) -> Result<MemDisk> {
    let mut wal = new_log(rt.alloc())?;
    let mut times = Times {
        gather: 0,
        append: 0,
        sync: 0,
        sha: 0,
    };
    let mut before = 0;
    while before < records {
        let count = (records - before).min(256);
        let ops = batch(rt.alloc(), before, count, body)?;
        write_batch(rt, &mut wal, ops, &mut times)?;
        before += count;
    }
    Ok(wal.into_disk())
}

// Nanoseconds of recovery of a log of so many ops.
fn recovered(rt: HostRuntime, records: u64, body: usize) -> Result<u128> {
    let disk = written(rt, records, body)?;
    let start = Instant::now(&rt)?;
    let Ok(mut recovered) = recover(disk, rt.alloc(), &[QueueId(1)], u64::MAX) else {
        bail!("the log isn't recovered");
    };
    let took = start.elapsed(&rt)?.as_nanos();
    let lane = recovered.lane(rt.alloc(), QueueId(1));
    ensure!(lane.is_some_and(|lane| lane.entries.as_slice().len() as u64 == records));
    Ok(took)
}

fn run_recovery(rt: HostRuntime, words: &[String]) -> Result<()> {
    let body = usize::try_from(number(words, 0)?)?;
    let (records, logs) = (number(words, 1)?, number(words, 2)?);
    let mut took = 0;
    for _ in 0..logs {
        took += recovered(rt, records, body)?;
    }
    let ops = records * logs;
    println!(rt; "{ops} {} {took}", ops * (body + BESIDE_BODY) as u64)?;
    Ok(())
}

pub fn run(rt: HostRuntime, words: &[String]) -> Result<()> {
    if word(words, 0)? == "recover" {
        return run_recovery(rt, &words[1..]);
    }
    let body = usize::try_from(number(words, 0)?)?;
    let (records, batches) = (number(words, 1)?, number(words, 2)?);
    let mut wal = new_log(rt.alloc())?;
    let mut record = Vec::from_elem(rt.alloc(), b'x', body + BESIDE_BODY)?;
    let mut times = Times {
        gather: 0,
        append: 0,
        sync: 0,
        sha: 0,
    };
    for number in 0..batches {
        let ops = batch(rt.alloc(), number * records, records, body)?;
        write_batch(rt, &mut wal, ops, &mut times)?;
        times.sha += time_hashes(rt, records, &mut record)?;
    }
    let ops = records * batches;
    let bytes = ops * (body + BESIDE_BODY) as u64;
    println!(rt;
        "{ops} {bytes} {} {} {} {}",
        times.gather, times.append, times.sync, times.sha
    )?;
    Ok(())
}
