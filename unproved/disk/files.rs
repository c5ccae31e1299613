//! Words of a line that name files and what a crash leaves of them.

use anyhow::{Result, bail};
use cases::Words;
use qq_base::Bytes;
use qq_disk::{FileKind, FileName, Image, Tail};
use std::alloc::Global;

/// A file of the log.
pub fn log_file(number: u64) -> FileName {
    FileName {
        kind: FileKind::Log,
        number,
    }
}

/// The file of a kind and a number.
pub fn file(words: &mut Words) -> Result<FileName> {
    let kind = match words.next() {
        "log" => FileKind::Log,
        "segment" => FileKind::Segment,
        "snapshot" => FileKind::Snapshot,
        _ => bail!("no such kind of file"),
    };
    Ok(FileName {
        kind,
        number: words.number()?,
    })
}

/// What a crash leaves of the newest log and of other files, and whether removed files are back.
pub fn image(words: &mut Words, alloc: Global) -> Result<Image> {
    Ok(Image {
        newest_log: tail(words, alloc)?,
        others: tail(words, alloc)?,
        removed_back: words.next() == "back",
    })
}

fn tail(words: &mut Words, alloc: Global) -> Result<Tail> {
    match words.next().split_once(':') {
        Some(("cut", count)) => Ok(Tail::Cut(count.parse()?)),
        Some(("junk", text)) => {
            let bytes = Vec::from_slice(alloc, text.as_bytes())?;
            Ok(Tail::Junk(Bytes::from_vec(bytes)))
        }
        _ => Ok(Tail::Whole),
    }
}
