//! A command as an audit has it.
use crate::audit_message::read_message;
use anyhow::{Context, Result, bail};
use qq_base::{DEAD_LETTER, Ids, QueueId, QueueIds, SessionId, Term, WORKER};
use qq_entry::{Command, DeadDone, DeadDones, Mode, Stamp};
use std::alloc::Global;

/// The command of a kind, of the words behind it.
pub fn read_command(alloc: Global, kind: &str, fields: &[&str]) -> Result<Command> {
    match (kind, fields) {
        ("noop", [version]) => Ok(Command::Noop {
            version: version.parse()?,
        }),
        ("down", [session]) => Ok(Command::Down {
            session: read_session(session)?,
        }),
        ("dead-attach", [term]) => Ok(Command::DeadAttach {
            term: Term(term.parse()?),
        }),
        ("dead-settle", [term, done @ ..]) => Ok(Command::DeadSettle {
            term: Term(term.parse()?),
            done: read_done(alloc, done)?,
        }),
        (_, [session, seq, done, fields @ ..]) => {
            let stamp = Stamp {
                session: read_session(session)?,
                seq: seq.parse()?,
                done: done.parse()?,
            };
            read_stamped(alloc, kind, stamp, fields)
        }
        _ => bail!("no such command"),
    }
}

fn read_stamped(alloc: Global, kind: &str, stamp: Stamp, fields: &[&str]) -> Result<Command> {
    match (kind, fields) {
        ("enqueue", [body, parts @ ..]) => {
            let (origin, message) = read_message(alloc, body, parts)?;
            Ok(Command::Enqueue {
                stamp,
                origin,
                message,
            })
        }
        ("get", []) => Ok(Command::Get { stamp }),
        ("purge", []) => Ok(Command::Purge { stamp }),
        (_, [tag, fields @ ..]) => read_tagged(alloc, kind, stamp, tag.parse()?, fields),
        _ => bail!("no such command"),
    }
}

fn read_tagged(
    alloc: Global,
    kind: &str,
    stamp: Stamp,
    tag: u32,
    fields: &[&str],
) -> Result<Command> {
    Ok(match (kind, fields) {
        ("subscribe", [mode]) => {
            let mode = read_mode(mode)?;
            Command::Subscribe { stamp, tag, mode }
        }
        ("cancel", []) => Command::Cancel { stamp, tag },
        ("credit", [count, credit, drain @ ..]) => Command::Credit {
            stamp,
            tag,
            count: count.parse()?,
            credit: credit.parse()?,
            drain: read_drain(drain)?,
        },
        ("settle", [ids]) => {
            let ids = read_ids(alloc, ids)?;
            Command::Settle { stamp, tag, ids }
        }
        ("return", [ids]) => {
            let ids = read_ids(alloc, ids)?;
            Command::Return { stamp, tag, ids }
        }
        ("discard", [ids]) => {
            let ids = read_ids(alloc, ids)?;
            Command::Discard { stamp, tag, ids }
        }
        _ => bail!("no such command"),
    })
}

fn read_session(word: &str) -> Result<SessionId> {
    let (class, rest) = if let Some(rest) = word.strip_prefix('d') {
        (WORKER, rest)
    } else if let Some(rest) = word.strip_prefix('o') {
        (DEAD_LETTER, rest)
    } else {
        return Ok(SessionId::client(word.parse()?));
    };
    let (owner, number) = rest.split_once('.').context("a session has no number")?;
    Ok(SessionId {
        class,
        owner: owner.parse()?,
        number: number.parse()?,
    })
}

fn read_mode(word: &str) -> Result<Mode> {
    match word.strip_prefix("prefetch=") {
        Some(count) => Ok(Mode::Prefetch(count.parse()?)),
        None if word == "link" => Ok(Mode::Link),
        None => bail!("no such mode"),
    }
}

fn read_drain(words: &[&str]) -> Result<bool> {
    match words {
        [] => Ok(false),
        ["drain"] => Ok(true),
        _ => bail!("`drain` or nothing is wanted"),
    }
}

fn read_ids(alloc: Global, word: &str) -> Result<Ids> {
    let mut ids = Ids::new(alloc);
    for id in word.split(',') {
        ids.push(id.parse()?)?;
    }
    Ok(ids)
}

fn read_done(alloc: Global, words: &[&str]) -> Result<DeadDones> {
    let mut done = DeadDones::new(alloc);
    for word in words {
        let (number, queues) = word.split_once('=').context("no target")?;
        let mut targets = QueueIds::new(alloc);
        for queue in queues.split(',') {
            targets.push(QueueId(queue.parse()?))?;
        }
        done.push(DeadDone {
            number: number.parse()?,
            targets,
        })?;
    }
    Ok(done)
}
