//! Cases and checks of AMQP's frames as bytes. The first word says which.
//!
//! - `frames`: cases of bytes and the frames that they are (`frames.rs`);
//! - `trials`: checks by name.
#![tactic(auto)]

mod frame_words;
mod frames;
mod wire_trials;

use anyhow::{Result, bail};
use cases::Trials;
use std::env;

fn check_all(rt: HostRuntime) -> Result<()> {
    let mut trials = Trials::new(rt);
    wire_trials::check(&mut trials)?;
    trials.end()
}

fn main(rt: HostRuntime) -> Result<()> {
    let words: Vec<String> = env::args(&rt)?.skip(1).collect(rt.alloc())?;
    let words: Vec<&str> = words.iter().map(|word| word.as_str()).collect(rt.alloc())?;
    match words.as_slice() {
        ["frames"] => frames::run_frames(rt),
        ["trials"] => check_all(rt),
        _ => bail!("usage: wire frames | trials"),
    }
}
