//! Replays audits that are written as text, on both machines.
//!
//! A line `queue ..` begins an audit of a new queue. It names the arguments that differ from those of a queue
//! that is declared with none:
//!
//! ```text
//! queue max-length=2 max-bytes=9 overflow=reject-publish delivery-limit=none live=3
//!       single-active=yes dead-letter=at-least-once dead-exchange=dx dead-key=k id=2 group=3
//! ```
//!
//! Each other line is an entry: its term, and a command, all in words. A stamped command has its session, its
//! number and the session's low mark behind its kind; the session is `1` for a client, `d1.2` for the worker
//! of queue 1 under term 2, and `o1.2` for a dead letter that it sends at most once. `x*9` is a body of nine
//! letters, ids are parted by commas, and what stands in brackets may be left out.
//!
//! ```text
//! 1 noop 1
//! 1 enqueue 1 1 0 BODY [key=KEY] [died=QUEUE,REASON ..] [from=QUEUE,NUMBER]
//! 1 get 1 2 1
//! 1 subscribe 1 3 2 TAG prefetch=N
//! 1 subscribe 1 4 3 TAG link
//! 1 cancel 1 5 4 TAG
//! 1 credit 1 6 5 TAG COUNT CREDIT [drain]
//! 1 settle 1 7 6 TAG IDS
//! 1 return 1 8 7 TAG IDS
//! 1 discard 1 9 8 TAG IDS
//! 1 purge 1 10 9
//! 1 down 1
//! 1 dead-attach TERM
//! 1 dead-settle TERM NUMBER=QUEUES ..
//! ```
//!
//! Answered are an entry's row of the audit, the message of a get, and its effects in order, each on a line.
use crate::audit_args::read_args;
use crate::audit_command::read_command;
use crate::audit_text::made_text;
use crate::pair::Pair;
use anyhow::{Result, bail};
use cases::answer_lines;
use qq_base::{QueueId, Term};
use qq_entry::{Entry, QueueArgs, Shared};
use std::alloc::Global;

fn answer(alloc: Global, pair: &mut Pair, line: &str) -> Result<String> {
    let words: Vec<&str> = line.split_whitespace().collect(alloc)?;
    match words.as_slice() {
        ["queue", args @ ..] => {
            *pair = Pair::new(alloc, read_args(alloc, args)?)?;
            Ok(String::new(alloc))
        }
        [term, kind, fields @ ..] => {
            let entry = Entry {
                term: Term(term.parse()?),
                time: 0,
                command: Shared::new(alloc, read_command(alloc, kind, fields)?)?,
            };
            let made = pair.apply(alloc, &entry)?;
            made_text(alloc, entry, made)
        }
        _ => bail!("a term and a command are wanted"),
    }
}

/// Replays the audits of the input.
pub fn run_audits(rt: HostRuntime) -> Result<()> {
    let alloc = rt.alloc();
    let mut pair = Pair::new(alloc, QueueArgs::new(alloc, QueueId(1), 1))?;
    answer_lines(rt, |line| answer(alloc, &mut pair, line))
}
