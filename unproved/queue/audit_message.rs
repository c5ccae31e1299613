//! The message of an enqueue as an audit has it.
use anyhow::{Context, Result, bail, ensure};
use qq_base::{Bytes, QueueId, Text};
use qq_entry::{BODY_LIMIT, Content, Death, Deaths, Message, Origin, Reason};
use std::alloc::Global;

/// A message, and where it comes from, of its body and the parts behind it.
pub fn read_message(
    alloc: Global,
    body: &str,
    parts: &[&str],
) -> Result<(Option<Origin>, Message)> {
    let mut content = Content {
        body: Bytes::from_vec(read_body(alloc, body)?),
        key: Text::new(alloc),
        deaths: Deaths::new(alloc),
    };
    let mut origin = None;
    for part in parts {
        let (name, value) = part.split_once('=').context("a part has no value")?;
        match name {
            "from" => origin = Some(read_origin(value)?),
            "key" => content.key = Text::from_str(alloc, value)?,
            "died" => content.deaths.push(read_death(value)?)?,
            _ => bail!("no such part of a message"),
        }
    }
    Ok((origin, Message::new(alloc, content)?))
}

/// A body as it is written, or so many times a text, as `x*9`.
fn read_body(alloc: Global, word: &str) -> Result<Vec<u8>> {
    let (text, count) = match word.split_once('*') {
        Some((text, count)) => (text, count.parse::<usize>()?),
        None => (word, 1),
    };
    ensure!(count <= BODY_LIMIT, "a body is too long");
    let mut body = Vec::new(alloc);
    for _ in 0..count {
        body.extend_from_slice(text.as_bytes())?;
    }
    Ok(body)
}

fn read_origin(word: &str) -> Result<Origin> {
    let (source, number) = word.split_once(',').context("an origin has no number")?;
    Ok(Origin {
        source: QueueId(source.parse()?),
        number: number.parse()?,
    })
}

fn read_death(word: &str) -> Result<Death> {
    let (queue, reason) = word.split_once(',').context("a death has no reason")?;
    Ok(Death {
        queue: QueueId(queue.parse()?),
        reason: match reason {
            "rejected" => Reason::Rejected,
            "expired" => Reason::Expired,
            "maxlen" => Reason::MaxLen,
            "delivery_limit" => Reason::DeliveryLimit,
            _ => bail!("no such reason"),
        },
    })
}
