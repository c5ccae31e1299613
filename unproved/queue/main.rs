//! Cases and checks of a queue: of its two machines, of what they are made of, and of the bytes of its
//! entries. The first word says which.
//!
//! - `audits`: cases of audits, on both machines (`audits.rs`);
//! - `entries`: cases of bytes and the entries that they encode (`entries.rs`);
//! - `random SEED ENTRIES`: so many random entries, on both machines (`random_run.rs`);
//! - `trials`: checks by name.
#![tactic(auto)]

mod audit_args;
mod audit_command;
mod audit_message;
mod audit_text;
mod audits;
mod base_trials;
mod draw;
mod entries;
mod entry_words;
mod live_trials;
mod loss_trials;
mod pair;
mod random_command;
mod random_queue;
mod random_run;
mod same;
mod seen;
mod session_trials;
mod undo_trials;
mod users;

use anyhow::{Result, bail};
use cases::Trials;
use std::env;

fn check_all(rt: HostRuntime) -> Result<()> {
    let mut trials = Trials::new(rt);
    base_trials::check(&mut trials)?;
    undo_trials::check(&mut trials)?;
    live_trials::check(&mut trials)?;
    session_trials::check(&mut trials)?;
    loss_trials::check(&mut trials)?;
    trials.end()
}

fn main(rt: HostRuntime) -> Result<()> {
    let words: Vec<String> = env::args(&rt)?.skip(1).collect(rt.alloc())?;
    let words: Vec<&str> = words.iter().map(|word| word.as_str()).collect(rt.alloc())?;
    match words.as_slice() {
        ["audits"] => audits::run_audits(rt),
        ["entries"] => entries::run_entries(rt),
        ["random", seed, entries] => random_run::run_random(rt, seed.parse()?, entries.parse()?),
        ["trials"] => check_all(rt),
        _ => bail!("usage: queue audits | entries | random SEED ENTRIES | trials"),
    }
}
