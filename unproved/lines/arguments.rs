//! Setups and queues' arguments in words.

use anyhow::{Result, bail};
use qq_base::Text;
use qq_defs::{DefsFault, QueueRow, Setup};
use qq_entry::{LIVE_LIMIT, Overflow, QueueArgs, Strategy};
use std::alloc::Global;
use std::fmt;

/// A name up to this length is shown in full.
const NAME_SHOWN: usize = 40;

/// So many of the first queues are shown, and the last one.
const ROWS_SHOWN: usize = 6;

/// A name or a key, or its length.
#[derive(Clone, Copy)]
struct Name<'a>(&'a Text);

impl fmt::Display for Name<'_> {
    fn fmt<W: fmt::Write>(&self, f: &mut fmt::Formatter<W>) -> fmt::Result {
        let name = self.0.as_str();
        if name.len() > NAME_SHOWN {
            return write!(f, "({} bytes)", name.len());
        }
        write!(f, "{name:?}")
    }
}

/// What an export or a queue's arguments were refused for.
pub fn fault_text(alloc: Global, fault: &DefsFault) -> Result<String> {
    Ok(match fault {
        DefsFault::Json => String::from_str(alloc, "not JSON")?,
        DefsFault::NotObject => String::from_str(alloc, "not an object")?,
        DefsFault::Missing { path } => format!(in alloc; "missing {}", path.as_str())?,
        DefsFault::BadArgument { name } => format!(in alloc; "bad argument {}", Name(name))?,
        DefsFault::Unsupported { name } => format!(in alloc; "unsupported {}", Name(name))?,
        DefsFault::Policies => String::from_str(alloc, "policies")?,
        DefsFault::UnknownTarget { name } => format!(in alloc; "unknown target {}", Name(name))?,
        DefsFault::Limit { count } => format!(in alloc; "limit {count}")?,
        DefsFault::Memory(_) => bail!("memory"),
    })
}

/// A queue's arguments: its group, what it does when it is full, and its delivery limit; then each that isn't
/// as in a queue with no arguments.
#[derive(Clone, Copy)]
pub struct Arguments<'a>(pub &'a QueueArgs);

impl fmt::Display for Arguments<'_> {
    fn fmt<W: fmt::Write>(&self, f: &mut fmt::Formatter<W>) -> fmt::Result {
        let args = self.0;
        let overflow = match args.overflow {
            Overflow::DropHead => "drop-head",
            Overflow::RejectPublish => "reject-publish",
        };
        write!(f, "group {}, {overflow}", args.group)?;
        match args.delivery_limit {
            Some(limit) => write!(f, ", delivery limit {limit}")?,
            None => f.write_str(", no delivery limit")?,
        }
        if let Some(length) = args.max_length {
            write!(f, ", length {length}")?;
        }
        if let Some(bytes) = args.max_bytes {
            write!(f, ", bytes {bytes}")?;
        }
        if args.single_active {
            f.write_str(", single active")?;
        }
        if args.live != LIVE_LIMIT {
            write!(f, ", live {}", args.live)?;
        }
        if args.strategy != Strategy::Absent || args.dead_exchange.len() > 0 {
            let strategy = match args.strategy {
                Strategy::Absent => "no dead letters",
                Strategy::AtMostOnce => "at-most-once",
                Strategy::AtLeastOnce => "at-least-once",
            };
            write!(f, ", {strategy} to {}", Name(&args.dead_exchange))?;
        }
        match &args.dead_key {
            Some(key) => write!(f, ", key {}", Name(key)),
            None => Ok(()),
        }
    }
}

/// A queue's number, name, nodes and arguments.
#[derive(Clone, Copy)]
struct Row<'a>(&'a QueueRow);

impl fmt::Display for Row<'_> {
    fn fmt<W: fmt::Write>(&self, f: &mut fmt::Formatter<W>) -> fmt::Result {
        let row = self.0;
        write!(f, "{} {} on", row.args.queue.0, Name(&row.name))?;
        for node in row.members.as_slice() {
            write!(f, " {}", node.0)?;
        }
        write!(f, ": {}", Arguments(&row.args))
    }
}

/// What was made of an export, in counts, and its queues.
pub fn setup_text(alloc: Global, setup: &Setup) -> Result<String> {
    let mut text = String::new(alloc);
    match &setup.made {
        Some(made) => {
            let (queues, exchanges) = (made.queues, made.exchanges);
            write!(text, "made queues {queues} exchanges {exchanges} ")?;
            write!(text, "bindings {} ", made.bindings)?;
            write!(text, "skipped queues {} ", made.skipped_queues)?;
            write!(text, "bindings {} ", made.skipped_bindings)?;
            writeln!(text, "other-vhosts {}", made.other_vhosts)?;
        }
        None => text.push_str("no definitions\n")?,
    }
    writeln!(text, "nodes {} log {}", setup.nodes, setup.log_bytes)?;
    let rows = setup.queues.as_slice();
    for (place, row) in rows.iter().enumerate() {
        if place < ROWS_SHOWN || place + 1 == rows.len() {
            writeln!(text, "{}", Row(row))?;
        }
    }
    Ok(text)
}
