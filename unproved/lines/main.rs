//! Cases and checks of a script's lines, of definitions, of routes, and of what is read and printed. The first
//! word says which.
//!
//! - `setups FOLDER`: cases of exports and of routes (`setups.rs`);
//! - `parse`: cases of lines (`parse.rs`);
//! - `trials`: checks by name.
#![tactic(auto)]

mod answers;
mod arguments;
mod expand;
mod parse;
mod ports;
mod routes;
mod said;
mod setups;

use anyhow::{Context, Result, bail};
use cases::Trials;
use std::env;

const USAGE: &str = "usage: lines setups FOLDER | parse | trials";

fn check_all(rt: HostRuntime) -> Result<()> {
    let mut trials = Trials::new(rt);
    ports::check(&mut trials)?;
    answers::check(&mut trials)?;
    routes::check(&mut trials)?;
    trials.end()
}

fn main(rt: HostRuntime) -> Result<()> {
    let words: Vec<String> = env::args(&rt)?.skip(1).collect(rt.alloc())?;
    let (mode, words) = words.split_first().context(USAGE)?;
    match (mode.as_str(), words) {
        ("setups", [folder]) => setups::run(rt, folder.as_str()),
        ("parse", []) => parse::run(rt),
        ("trials", []) => check_all(rt),
        _ => bail!("{USAGE}"),
    }
}
