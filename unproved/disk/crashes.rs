//! Checks of crashes and of calls that fail halfway.

use crate::files::log_file;
use anyhow::{Result, ensure};
use cases::{Trials, run_each};
use qq_disk::{DiskFault, Image, NodeDisk, Tail, store_two};
use qq_disk_pins::WornDisk;
use qq_mem_disk::MemDisk;

/// Two records are stored, and a crash that leaves nothing of what waits for a sync leaves both.
fn stored_records_survive_a_crash(rt: HostRuntime) -> Result<()> {
    let alloc = rt.alloc();
    let log = log_file(1);
    let mut disk = MemDisk::new(alloc);
    store_two(&mut disk, alloc, log, b"ab", b"cd")?;
    ensure!(disk.names(alloc)?.as_slice() == [log].as_slice());
    ensure!(disk.size(alloc, log)? == 4);
    let image = Image {
        newest_log: Tail::Cut(0),
        others: Tail::Cut(0),
        removed_back: false,
    };
    let mut disk = disk.crash(alloc, &image)?;
    let mut buf = [0; 4];
    ensure!(disk.read(alloc, log, 0, &mut buf)? == 4);
    ensure!(buf == *b"abcd");
    disk.remove(alloc, log)?;
    ensure!(disk.names(alloc)?.is_empty());
    Ok(())
}

/// Each call that fails has done half of its work: the second append here, and the removal.
fn calls_fail_halfway(rt: HostRuntime) -> Result<()> {
    let alloc = rt.alloc();
    let log = log_file(1);
    let mut disk = WornDisk::new(MemDisk::new(alloc), vec![in alloc; 2, 5]?);
    disk.append(alloc, log, b"ab")?;
    ensure!(disk.append(alloc, log, b"cdef") == Err(DiskFault::Failed));
    ensure!(disk.size(alloc, log)? == 4);
    disk.sync(alloc, log)?;
    ensure!(disk.remove(alloc, log) == Err(DiskFault::Failed));
    ensure!(disk.size(alloc, log)? == 0);
    Ok(())
}

pub fn check(trials: &mut Trials) -> Result<()> {
    run_each!(
        trials;
        stored_records_survive_a_crash,
        calls_fail_halfway,
    );
    Ok(())
}
