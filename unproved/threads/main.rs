//! Checks of the inbox and of the marks, in one thread and over several, and of values that take turns, by name.
#![tactic(auto)]

mod boxes;
mod kept;
mod marks;
mod threads;
mod turns;

use anyhow::Result;
use cases::Trials;

fn main(rt: HostRuntime) -> Result<()> {
    let mut trials = Trials::new(rt);
    boxes::check(&rt, &mut trials)?;
    marks::check(&rt, &mut trials)?;
    threads::check(&rt, &mut trials)?;
    turns::check(&rt, &mut trials)?;
    trials.end()
}
