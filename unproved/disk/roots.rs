//! A disk under a root of a yard of folders.
//!
//! The word is the root. What the yard answers is printed, and the yard is kept until the input ends.

use anyhow::{Result, bail};
use qq_base::NodeId;
use qq_ports::{FolderYard, Yard};
use std::io;

pub fn run(rt: HostRuntime, words: &[String]) -> Result<()> {
    let [root] = words else {
        bail!("usage: disk root ROOT");
    };
    let alloc = rt.alloc();
    let mut yard = FolderYard::new(rt, alloc);
    match yard.disk(alloc, Some(root.as_str()), NodeId(1)) {
        Ok(_) => println!(rt; "done")?,
        Err(fault) => println!(rt; "{fault}")?,
    }
    io::read_to_string(alloc, rt.stdin())?;
    Ok(())
}
