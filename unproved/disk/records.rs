//! Appends records to a disk in a folder, and syncs now and then.
//!
//! The words are `FOLDER SYNCS RECORDS BYTES`: RECORDS records of BYTES bytes each go to log 1 before each
//! of SYNCS syncs, each by an append of its own. A record is its number in ten digits, from 0 on, dots and a
//! line feed. After each sync the number of its last record is printed; with `quiet` as a fifth word, only after
//! the last sync.

use crate::files::log_file;
use anyhow::{Context, Result, bail};
use qq_dir_disk::DirDisk;
use qq_disk::NodeDisk;

fn number(word: &str) -> Result<usize> {
    word.parse().context("a number is wanted")
}

pub fn run(rt: HostRuntime, words: &[String]) -> Result<()> {
    let [folder, syncs, records, bytes, rest @ ..] = words else {
        bail!("usage: disk records FOLDER SYNCS RECORDS BYTES [quiet]");
    };
    let alloc = rt.alloc();
    let mut disk = DirDisk::new(rt, alloc, folder.clone()?);
    let mut record = vec![in alloc; b'.'; number(bytes.as_str())?.max(11)]?;
    if let Some(last) = record.last_mut() {
        *last = b'\n';
    }
    let records = number(records.as_str())?;
    let mut count = 0;
    for _ in 0..number(syncs.as_str())? {
        for number in count..count + records {
            let digits = format!(in alloc; "{number:010}")?;
            record[..10].copy_from_slice(digits.as_bytes());
            disk.append(alloc, log_file(1), &record)?;
        }
        disk.sync(alloc, log_file(1))?;
        count += records;
        if rest.is_empty() {
            println!(rt; "{}", count.saturating_sub(1))?;
        }
    }
    if !rest.is_empty() {
        println!(rt; "{}", count.saturating_sub(1))?;
    }
    Ok(())
}
