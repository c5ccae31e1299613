//! A queue's arguments as an audit has them.
use anyhow::{Context, Result, bail};
use qq_base::{QueueId, Text};
use qq_entry::{Overflow, QueueArgs, Strategy};
use std::alloc::Global;

/// The arguments of these words, each of which is `NAME=VALUE`.
pub fn read_args(alloc: Global, words: &[&str]) -> Result<QueueArgs> {
    let mut args = QueueArgs::new(alloc, QueueId(1), 1);
    for word in words {
        let (name, value) = word.split_once('=').context("an argument has no value")?;
        match name {
            "id" => args.queue = QueueId(value.parse()?),
            "group" => args.group = value.parse()?,
            "max-length" => args.max_length = Some(value.parse()?),
            "max-bytes" => args.max_bytes = Some(value.parse()?),
            "overflow" => args.overflow = read_overflow(value)?,
            "delivery-limit" => args.delivery_limit = read_limit(value)?,
            "single-active" => args.single_active = value == "yes",
            "live" => args.live = value.parse()?,
            "dead-letter" => args.strategy = read_strategy(value)?,
            "dead-exchange" => args.dead_exchange = Text::from_str(alloc, value)?,
            "dead-key" => args.dead_key = Some(Text::from_str(alloc, value)?),
            _ => bail!("no such argument"),
        }
    }
    Ok(args)
}

fn read_limit(word: &str) -> Result<Option<u64>> {
    if word == "none" {
        return Ok(None);
    }
    Ok(Some(word.parse()?))
}

fn read_overflow(word: &str) -> Result<Overflow> {
    match word {
        "drop-head" => Ok(Overflow::DropHead),
        "reject-publish" => Ok(Overflow::RejectPublish),
        _ => bail!("no such overflow"),
    }
}

fn read_strategy(word: &str) -> Result<Strategy> {
    match word {
        "at-most-once" => Ok(Strategy::AtMostOnce),
        "at-least-once" => Ok(Strategy::AtLeastOnce),
        _ => bail!("no such strategy"),
    }
}
