//! Says in words which entries bytes are.
//!
//! A line is bytes in hexadecimal digits, with blanks anywhere between two bytes; `61*3` stands for `616161`.
//! Answered is the entry at their front, or the refusal.
use crate::entry_words::EntryWords;
use anyhow::{Result, bail};
use cases::answer_lines;
use hex::FromHexError;
use qq_command::{decode, encode};
use std::alloc::Global;

fn read_bytes(alloc: Global, line: &str) -> Result<Option<Vec<u8>>> {
    let mut bytes = Vec::new(alloc);
    for word in line.split_whitespace() {
        let (digits, count) = word.split_once('*').unwrap_or((word, "1"));
        let part = match hex::decode(alloc, digits) {
            Ok(part) => part,
            Err(FromHexError::OutOfMemory) => bail!("out of memory"),
            Err(_) => return Ok(None),
        };
        for _ in 0..count.parse::<u32>()? {
            bytes.extend_from_slice(&part)?;
        }
    }
    Ok(Some(bytes))
}

fn answer(alloc: Global, line: &str) -> Result<String> {
    let Some(bytes) = read_bytes(alloc, line)? else {
        return Ok(String::from_str(alloc, "not hexadecimal")?);
    };
    let (entry, taken) = match decode(alloc, &bytes) {
        Ok(found) => found,
        Err(refusal) => return Ok(format!(in alloc; "{refusal:?}")?),
    };
    let (front, rest) = bytes.split_at(taken);
    let back = match encode(alloc, &entry)?.as_slice() == front {
        true => "encodes back",
        false => "encodes otherwise",
    };
    let words = format!(in alloc; "{}; {back}", EntryWords(&entry))?;
    match rest.len() {
        0 => Ok(words),
        left => Ok(format!(in alloc; "{words}, {left} left")?),
    }
}

/// Answers each line of bytes of the input.
pub fn run_entries(rt: HostRuntime) -> Result<()> {
    answer_lines(rt, |line| answer(rt.alloc(), line))
}
