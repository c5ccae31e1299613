//! Checks of numbers, lists, copies and the bytes of an entry.
use crate::same::same;
use anyhow::{Result, bail, ensure};
use cases::{Trials, run_each};
use qq_base::{
    Bytes, Duplicate, Ids, Index, Items, QueueId, QueueIds, SessionId, Term, Text, put_u8, put_u16,
    put_u32, put_u64, take_u8, take_u16, take_u32, take_u64,
};
use qq_command::{decode, encode, put_entry};
use qq_entry::{
    Answer, AuditRow, Command, Content, DeadDone, DeadDones, Death, Deaths, Delivery, Entry,
    Message, QueueArgs, Reason, Rows, Shared, Stamp, Unstamped,
};
use std::alloc::Global;

fn numbers_stand_high_byte_first(rt: HostRuntime) -> Result<()> {
    let alloc = rt.alloc();
    let mut out = Vec::new(alloc);
    put_u8(&mut out, 7)?;
    put_u16(&mut out, 0x0102)?;
    put_u32(&mut out, 0x0304_0506)?;
    put_u64(&mut out, 0x0708_090a_0b0c_0d0e)?;
    let wanted = [7, 1, 2, 3, 4, 5, 6, 7, 8, 9, 10, 11, 12, 13, 14];
    same(out.as_slice(), wanted.as_slice())?;
    same(take_u8(&wanted), Some((7, 1)))?;
    same(take_u16(&wanted[1..]), Some((0x0102, 2)))?;
    same(take_u32(&wanted[3..]), Some((0x0304_0506, 4)))?;
    same(take_u64(&wanted[7..]), Some((0x0708_090a_0b0c_0d0e, 8)))?;
    same(take_u32(&wanted[12..]), None)
}

fn lists_are_made_and_copied(rt: HostRuntime) -> Result<()> {
    let alloc = rt.alloc();
    let mut ids = Ids::new(alloc);
    ids.push(3)?;
    ids.push(9)?;
    let again = ids.copy(alloc)?;
    same(again.as_slice(), [3, 9].as_slice())?;
    same(again.into_vec().len(), 2)?;
    let mut names = Items::new(alloc);
    names.push(Text::from_str(alloc, "orders")?)?;
    same(names.copy(alloc)?, names)?;
    let name = Text::from_str(alloc, "orders")?;
    same(name.copy(alloc)?.as_str(), "orders")
}

fn message(alloc: Global) -> Result<Message> {
    let death = Death {
        queue: QueueId(3),
        reason: Reason::MaxLen,
    };
    let content = Content {
        body: Bytes::from_vec(vec![in alloc; 7, 8]?),
        key: Text::from_str(alloc, "orders")?,
        deaths: Deaths::from_vec(vec![in alloc; death]?),
    };
    Ok(Message::new(alloc, content)?)
}

fn rows_are_copied(rt: HostRuntime) -> Result<()> {
    let alloc = rt.alloc();
    let stamp = Stamp {
        session: SessionId::client(4),
        seq: 2,
        done: 1,
    };
    let command = Command::Enqueue {
        stamp,
        origin: None,
        message: message(alloc)?,
    };
    let entry = Entry {
        term: Term(1),
        time: 0,
        command: Shared::new(alloc, command)?,
    };
    let delivery = Delivery {
        index: Index(2),
        arrival: 1,
        id: 0,
        count: 0,
        message: message(alloc)?,
    };
    let mut rows = Rows::new(alloc);
    rows.push(AuditRow {
        index: Index(3),
        entry,
        fresh: true,
        answer: Answer::Got(delivery),
    })?;
    same(rows.copy(alloc)?, rows)
}

fn commands_and_arguments_are_copied(rt: HostRuntime) -> Result<()> {
    let alloc = rt.alloc();
    let done = DeadDone {
        number: 1,
        targets: QueueIds::from_vec(vec![in alloc; QueueId(2)]?),
    };
    let command = Command::DeadSettle {
        term: Term(3),
        done: DeadDones::from_vec(vec![in alloc; done]?),
    };
    same(command.copy(alloc)?, command)?;
    let unstamped = Unstamped::Settle {
        tag: 1,
        ids: Ids::from_vec(vec![in alloc; 5, 6]?),
    };
    same(unstamped.copy(alloc)?, unstamped)?;
    let args = QueueArgs::new(alloc, QueueId(1), 3);
    same(args.copy(alloc)?, args)
}

/// Term 3, time 5: a first entry of version 1.
const NOOP: [u8; 22] = [
    0, 0, 0, 0, 0, 0, 0, 3, 0, 0, 0, 10, 0, 0, 0, 0, 0, 0, 0, 5, 0, 1,
];

fn an_entry_is_read_and_put_behind_other_bytes(rt: HostRuntime) -> Result<()> {
    let alloc = rt.alloc();
    let (entry, taken) = match decode(alloc, &NOOP) {
        Ok(found) => found,
        Err(refusal) => bail!("{refusal:?}"),
    };
    same(taken, 22)?;
    let mut bytes = encode(alloc, &entry)?;
    put_entry(&mut bytes, &entry)?;
    let wanted = Entry {
        term: Term(3),
        time: 5,
        command: Shared::new(alloc, Command::Noop { version: 1 })?,
    };
    same(entry, wanted)?;
    same(bytes.len(), 44)?;
    ensure!(bytes.starts_with(&NOOP));
    ensure!(bytes.ends_with(&NOOP));
    Ok(())
}

/// Runs them.
pub fn check(trials: &mut Trials) -> Result<()> {
    run_each!(trials;
        numbers_stand_high_byte_first,
        lists_are_made_and_copied,
        rows_are_copied,
        commands_and_arguments_are_copied,
        an_entry_is_read_and_put_behind_other_bytes,
    );
    Ok(())
}
