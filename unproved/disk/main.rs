//! Cases and checks of disks, of shelves and of the log. The first word says which.
//!
//! - `calls`: cases of a disk's calls (`calls.rs`);
//! - `shelves`: cases of files of a shelf (`shelves.rs`);
//! - `logs [FOLDER QUEUE..]`: cases of what recovery reads of log files, or what it reads of a disk in a
//!   folder (`logs.rs`);
//! - `writer`: cases of what the log's writer answers (`writer.rs`);
//! - `records FOLDER SYNCS RECORDS BYTES [quiet]`: records are appended to a disk in a folder (`records.rs`);
//! - `root ROOT`: a disk under a root that other processes may have locked (`roots.rs`);
//! - `trials`: checks by name.
#![tactic(auto)]

mod call;
mod calls;
mod crashes;
mod cuts;
mod digests;
mod dumps;
mod encodings;
mod files;
mod lanes;
mod logs;
mod new_files;
mod random;
mod records;
mod roots;
mod shelves;
mod stops;
mod watched;
mod writer;
mod yards;

use anyhow::{Context, Result, bail};
use cases::Trials;
use std::env;

const USAGE: &str = "usage: disk calls | shelves | logs | writer | records | root | trials";

fn check_all(rt: HostRuntime) -> Result<()> {
    let mut trials = Trials::new(rt);
    crashes::check(&mut trials)?;
    cuts::check(&mut trials)?;
    digests::check(&mut trials)?;
    encodings::check(&mut trials)?;
    new_files::check(&mut trials)?;
    trials.end()
}

fn main(rt: HostRuntime) -> Result<()> {
    let words: Vec<String> = env::args(&rt)?.skip(1).collect(rt.alloc())?;
    let (mode, words) = words.split_first().context(USAGE)?;
    match mode.as_str() {
        "calls" => calls::run(rt),
        "shelves" => shelves::run(rt),
        "logs" => logs::run(rt, words),
        "writer" => writer::run(rt),
        "records" => records::run(rt, words),
        "root" => roots::run(rt, words),
        "trials" => check_all(rt),
        _ => bail!("{USAGE}"),
    }
}
