//! The benches. The first word names one, and those behind it are its load; the scripts of the folder `bench` at
//! the top of the repository run each load some times, and print the best run.

mod cluster;
mod definitions;
mod group;
mod inbox;
mod log;
mod machine;
mod made;
mod memory;
mod raft;
mod sessions;
mod words;

use anyhow::Result;
use std::env;

const USAGE: &str = "usage: bench cluster NODES QUEUES BODY SENDS MESSAGES run|serve [USED]
       bench definitions FILE
       bench group MEMBERS WINDOW ENTRIES BODY logs|none keep|purge
       bench inbox ops BYTES COUNT ROUNDS | marks COUNT
       bench log BODY RECORDS BATCHES
       bench machine parts|plain READY CONSUMERS ENTRIES
       bench raft MEMBERS WINDOW ENTRIES BODY
       bench sessions OPEN ENDED";

fn main(rt: HostRuntime) -> Result<()> {
    let mut words = Vec::new(rt.alloc());
    for word in env::args(&rt)?.skip(1) {
        words.push(word)?;
    }
    let Some((name, load)) = words.as_slice().split_first() else {
        println!(rt; "{USAGE}")?;
        return Ok(());
    };
    match name.as_str() {
        "cluster" => cluster::run(rt, load),
        "definitions" => definitions::run(rt, load),
        "group" => group::run(rt, load),
        "inbox" => inbox::run(&rt, rt.alloc(), load),
        "log" => log::run(rt, load),
        "machine" => machine::run(rt, load),
        "raft" => raft::run(rt, load),
        "sessions" => sessions::run(rt, load),
        _ => anyhow::bail!("no such bench"),
    }
}
