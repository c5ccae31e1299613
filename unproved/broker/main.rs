//! Checks of whole runs of the broker, by name.
#![tactic(auto)]

mod calls;
mod embedded;
mod rolls;
mod runs;
mod script;
mod stops;
mod used;
mod yard;

use anyhow::Result;
use cases::Trials;

fn main(rt: HostRuntime) -> Result<()> {
    let mut trials = Trials::new(rt);
    runs::check(&mut trials)?;
    rolls::check(&mut trials)?;
    used::check(&mut trials)?;
    stops::check(&mut trials)?;
    embedded::check(&mut trials)?;
    calls::check(&mut trials)?;
    trials.end()
}
