use anyhow::Result;
use qq_base::{Bytes, SessionId, Term, Text};
use qq_entry::{Command, Content, Deaths, Entry, Message, Shared, Stamp};
use std::alloc::Global;

/// Session 1's stamp with a number, which has had the answers of all before it.
pub fn stamp(seq: u64) -> Stamp {
    Stamp {
        session: SessionId::client(1),
        seq,
        done: seq - 1,
    }
}

/// The command that publishes a message with a body of so many bytes.
pub fn publish(alloc: Global, stamp: Stamp, size: usize) -> Result<Command> {
    let content = Content {
        body: Bytes::from_vec(Vec::from_elem(alloc, b'x', size)?),
        key: Text::new(alloc),
        deaths: Deaths::new(alloc),
    };
    Ok(Command::Enqueue {
        stamp,
        origin: None,
        message: Message::new(alloc, content)?,
    })
}

/// The entry of term 1 with a command.
pub fn entry(alloc: Global, command: Command) -> Result<Entry> {
    Ok(Entry {
        term: Term(1),
        time: 0,
        command: Shared::new(alloc, command)?,
    })
}
