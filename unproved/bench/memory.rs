use anyhow::{Context, Result};
use std::fs;

// A number of KiB in the system's status of the process (proc(5)).
fn status(rt: &HostRuntime, field: &str) -> Result<u64> {
    let status = fs::read_to_string(rt, "/proc/self/status")?;
    for line in status.lines() {
        if let Some(rest) = line.strip_prefix(field) {
            let number = rest.split_whitespace().next();
            return number
                .context("a number is missing")?
                .parse()
                .context("a number is wanted");
        }
    }
    anyhow::bail!("the system doesn't say")
}

/// The KiB of memory that the process has.
pub fn memory(rt: &HostRuntime) -> Result<u64> {
    status(rt, "VmRSS:")
}

/// The KiB of memory that the process had at most.
pub fn most_memory(rt: &HostRuntime) -> Result<u64> {
    status(rt, "VmHWM:")
}
