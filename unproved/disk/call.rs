//! One call of a disk, as a line.

use crate::files::file;
use anyhow::{Result, bail};
use cases::Words;
use qq_disk::{DiskFault, FileKind, FileName, NodeDisk};
use std::alloc::Global;
use std::fmt;

/// The names of files, in the disk's order.
#[derive(Drop)]
struct Names(Vec<FileName>);

impl fmt::Display for Names {
    fn fmt<W: fmt::Write>(&self, f: &mut fmt::Formatter<W>) -> fmt::Result {
        for (place, name) in self.0.iter().enumerate() {
            let comma = if place > 0 { ", " } else { "" };
            let kind = match name.kind {
                FileKind::Log => "log",
                FileKind::Segment => "segment",
                FileKind::Snapshot => "snapshot",
            };
            write!(f, "{comma}{kind} {}", name.number)?;
        }
        Ok(())
    }
}

fn text<T: fmt::Display + Drop>(alloc: Global, answer: Result<T, DiskFault>) -> Result<String> {
    Ok(match answer {
        Ok(value) => format!(in alloc; "{value}")?,
        Err(DiskFault::Failed) => String::from_str(alloc, "failed")?,
        Err(DiskFault::Memory(_)) => String::from_str(alloc, "memory")?,
    })
}

fn read<D: NodeDisk>(alloc: Global, disk: &mut D, words: &mut Words) -> Result<String> {
    let file = file(words)?;
    let place = words.number()?;
    let mut buf = vec![in alloc; b'.'; words.number()?]?;
    match disk.read(alloc, file, place, &mut buf) {
        Ok(count) => Ok(format!(in alloc; "`{}`", str::from_utf8(&buf[..count])?)?),
        Err(fault) => text::<&str>(alloc, Err(fault)),
    }
}

/// Makes a line's call of a disk, and returns the answer as text.
pub fn answer<D: NodeDisk>(alloc: Global, disk: &mut D, line: &str) -> Result<String> {
    let words = &mut Words::new(line);
    let done = match words.next() {
        "names" => return text(alloc, disk.names(alloc).map(|names| Names(names))),
        "size" => return text(alloc, disk.size(alloc, file(words)?)),
        "read" => return read(alloc, disk, words),
        "append" => disk.append(alloc, file(words)?, words.next().as_bytes()),
        "sync" => disk.sync(alloc, file(words)?),
        "remove" => disk.remove(alloc, file(words)?),
        _ => bail!("no such call"),
    };
    text(alloc, done.map(|()| "done"))
}
