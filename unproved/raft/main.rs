//! Cases and checks of groups of Raft servers with counting machines, in memory. The first word says which.
//!
//! - `events`: cases of a group's events (`events.rs`);
//! - `schedule SEED STEPS`: a random schedule of events (`schedule.rs`);
//! - `starts SEED DRAWS STEPS`: random schedules over random disks that support an audit (`starts.rs`);
//! - `terms`: entries of an older term are committed (`terms.rs`);
//! - `trials`: checks by name.
#![tactic(auto)]

mod counting;
mod disk;
mod events;
mod messages;
mod party;
mod schedule;
mod starts;
mod terms;
mod watch;

use anyhow::{Context, Result, bail};
use cases::Trials;
use std::env;

const USAGE: &str =
    "usage: raft events | schedule SEED STEPS | starts SEED DRAWS STEPS | terms | trials";

fn check_all(rt: HostRuntime) -> Result<()> {
    let mut trials = Trials::new(rt);
    messages::check(&mut trials)?;
    counting::check(&mut trials)?;
    trials.end()
}

fn number(word: &str) -> Result<u64> {
    word.parse().context("a number is wanted")
}

fn main(rt: HostRuntime) -> Result<()> {
    let words: Vec<String> = env::args(&rt)?.skip(1).collect(rt.alloc())?;
    let (mode, words) = words.split_first().context(USAGE)?;
    match (mode.as_str(), words) {
        ("events", []) => events::run(rt),
        ("schedule", [seed, steps]) => {
            schedule::run(rt, number(seed.as_str())?, number(steps.as_str())?)
        }
        ("starts", [seed, draws, steps]) => starts::run(
            rt,
            number(seed.as_str())?,
            number(draws.as_str())?,
            number(steps.as_str())?,
        ),
        ("terms", []) => terms::run(rt),
        ("trials", []) => check_all(rt),
        _ => bail!("{USAGE}"),
    }
}
