//! What a dump writes of a disk.

use anyhow::Result;
use qq_disk::NodeDisk;
use qq_dump::dump;
use qq_ports::MemSink;
use std::alloc::Global;

/// The most bytes that a dump may have here.
const ROOM: usize = 1 << 16;

/// The text of a disk's log files.
pub fn dumped<D: NodeDisk>(alloc: Global, disk: &mut D) -> Result<String> {
    let mut output = MemSink::new(alloc, ROOM, Vec::new(alloc))?;
    dump(alloc, disk, &mut output)?;
    Ok(String::from_str(alloc, str::from_utf8(output.bytes())?)?)
}
