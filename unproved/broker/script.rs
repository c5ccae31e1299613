//! A script of messages to two queues, and what its run has printed of them.

use anyhow::Result;
use std::alloc::Global;

/// A message's body begins with its queue and its number there.
pub fn body_front(alloc: Global, queue: u32, number: u64) -> Result<String> {
    Ok(format!(in alloc; "q{queue}.{number}.")?)
}

/// Messages to two queues, longer than a log file, a crash of all nodes, more messages, another crash, and gets of all.
/// After a crash the nodes are restarted, and the queues get leaders: each by its first member, or by the second one
/// where that is down.
pub fn script(alloc: Global, nodes: usize, image: &str) -> Result<String> {
    let long = "x".repeat(alloc, 40_000)?;
    let mut crash = format!(in alloc; "crash all {image}\nrestart all\n")?;
    for node in 1..=nodes.min(2) {
        for queue in 1..=2 {
            writeln!(crash, "tick {node} q{queue}\npump")?;
        }
    }
    let mut text = String::new(alloc);
    for (queue, number, letters) in [(1, 1, ""), (2, 1, &long), (1, 2, &long), (2, 2, "")] {
        let front = body_front(alloc, queue, number)?;
        writeln!(text, "send 1 - q{queue} {front}{letters}")?;
    }
    text.push_str(crash.as_str())?;
    for queue in 1..=2 {
        writeln!(text, "send 1 - q{queue} {}", body_front(alloc, queue, 3)?)?;
    }
    text.push_str(crash.as_str())?;
    for queue in 1..=2 {
        text.push_str(
            format!(in alloc; "get 2 q{queue}\n")?
                .as_str()
                .repeat(alloc, 5)?
                .as_str(),
        )?;
    }
    Ok(text)
}

/// Whether session 1 heard that a message was confirmed.
pub fn was_confirmed(alloc: Global, printed: &str, queue: u32, number: u64) -> Result<bool> {
    let wanted = match queue {
        1 => format!(in alloc; "confirmed {number}")?,
        _ => format!(in alloc; "1 q{queue}: confirmed {number}")?,
    };
    Ok(printed.lines().any(|line| line == wanted.as_str()))
}

/// Whether session 2 got a message: a line has such a front, a number and a body that begins so.
pub fn was_got(alloc: Global, printed: &str, queue: u32, number: u64) -> Result<bool> {
    let front = format!(in alloc; "2 q{queue}: message ")?;
    let body = body_front(alloc, queue, number)?;
    Ok(
        printed
            .lines()
            .filter_map(|line| line.strip_prefix(front.as_str()))
            .filter_map(|message| message.split_once(' '))
            .any(|(_, text)| text.starts_with(body.as_str())),
    )
}
