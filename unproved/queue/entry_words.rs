use qq_base::{Ids, SessionId};
use qq_command::{Command, Content, DeadDone, Entry, Message, Mode, Origin, Stamp};
use std::fmt::{self, Formatter, Write};

/// A body up to this length is shown in full.
const BODY_SHOWN: usize = 16;

/// So many of a list are shown.
const ITEMS_SHOWN: usize = 4;

/// An entry in words: its term and time, its command, and the command's fields by their names.
#[derive(Clone, Copy)]
pub struct EntryWords<'a>(pub &'a Entry);

impl fmt::Display for EntryWords<'_> {
    fn fmt<W: Write>(&self, f: &mut Formatter<W>) -> fmt::Result {
        let entry = self.0;
        write!(f, "term {}, time {}, ", entry.term.0, entry.time)?;
        write_command(f, entry.command.get())
    }
}

fn write_command<W: Write>(f: &mut Formatter<W>, command: &Command) -> fmt::Result {
    match command {
        Command::Noop { version } => write!(f, "noop, version {version}"),
        Command::Enqueue {
            stamp,
            origin,
            message,
        } => {
            write_stamp(f, "enqueue", stamp)?;
            write_origin(f, *origin)?;
            write_message(f, message)
        }
        Command::Get { stamp } => write_stamp(f, "get", stamp),
        Command::Subscribe { stamp, tag, mode } => {
            write_consumer(f, "subscribe", stamp, *tag)?;
            write_mode(f, *mode)
        }
        Command::Cancel { stamp, tag } => write_consumer(f, "cancel", stamp, *tag),
        Command::Credit {
            stamp,
            tag,
            count,
            credit,
            drain,
        } => {
            write_consumer(f, "credit", stamp, *tag)?;
            write!(f, ", count {count}, credit {credit}, drain {drain}")
        }
        Command::Settle { stamp, tag, ids } => write_ids(f, "settle", stamp, *tag, ids),
        Command::Return { stamp, tag, ids } => write_ids(f, "return", stamp, *tag, ids),
        Command::Discard { stamp, tag, ids } => write_ids(f, "discard", stamp, *tag, ids),
        Command::Purge { stamp } => write_stamp(f, "purge", stamp),
        Command::Down { session } => {
            f.write_str("down")?;
            write_session(f, session)
        }
        Command::DeadAttach { term } => write!(f, "dead attach, term {}", term.0),
        Command::DeadSettle { term, done } => {
            write!(f, "dead settle, term {}", term.0)?;
            write_done(f, done.as_slice())
        }
    }
}

fn write_session<W: Write>(f: &mut Formatter<W>, session: &SessionId) -> fmt::Result {
    let SessionId {
        class,
        owner,
        number,
    } = session;
    write!(f, ", class {class}, owner {owner}, number {number}")
}

fn write_stamp<W: Write>(f: &mut Formatter<W>, kind: &str, stamp: &Stamp) -> fmt::Result {
    f.write_str(kind)?;
    write_session(f, &stamp.session)?;
    write!(f, ", seq {}, done {}", stamp.seq, stamp.done)
}

fn write_consumer<W: Write>(
    f: &mut Formatter<W>,
    kind: &str,
    stamp: &Stamp,
    tag: u32,
) -> fmt::Result {
    write_stamp(f, kind, stamp)?;
    write!(f, ", tag {tag}")
}

fn write_mode<W: Write>(f: &mut Formatter<W>, mode: Mode) -> fmt::Result {
    match mode {
        Mode::Prefetch(count) => write!(f, ", prefetch {count}"),
        Mode::Link => f.write_str(", link"),
    }
}

// A consumer's command about deliveries.
fn write_ids<W: Write>(
    f: &mut Formatter<W>,
    kind: &str,
    stamp: &Stamp,
    tag: u32,
    ids: &Ids,
) -> fmt::Result {
    write_consumer(f, kind, stamp, tag)?;
    write!(f, ", {} ids", ids.len())?;
    for id in ids.as_slice().iter().take(ITEMS_SHOWN) {
        write!(f, " {id}")?;
    }
    Ok(())
}

fn write_origin<W: Write>(f: &mut Formatter<W>, origin: Option<Origin>) -> fmt::Result {
    match origin {
        None => f.write_str(", no origin"),
        Some(origin) => write!(f, ", origin {} of queue {}", origin.number, origin.source.0),
    }
}

fn write_message<W: Write>(f: &mut Formatter<W>, message: &Message) -> fmt::Result {
    write!(f, ", size {}", message.size)?;
    match &message.content {
        Some(content) => write_content(f, content.get()),
        None => f.write_str(", no content"),
    }
}

fn write_content<W: Write>(f: &mut Formatter<W>, content: &Content) -> fmt::Result {
    f.write_str(", body ")?;
    for byte in content.body.as_slice().iter().take(BODY_SHOWN) {
        write!(f, "{byte:02x}")?;
    }
    if content.body.len() > BODY_SHOWN {
        f.write_str("..")?;
    }
    let deaths = content.deaths.as_slice();
    write!(
        f,
        ", key {:?}, {} deaths",
        content.key.as_str(),
        deaths.len()
    )?;
    for death in deaths.iter().take(ITEMS_SHOWN) {
        write!(f, " {}:{:?}", death.queue.0, death.reason)?;
    }
    Ok(())
}

fn write_done<W: Write>(f: &mut Formatter<W>, done: &[DeadDone]) -> fmt::Result {
    write!(f, ", {} dead letters", done.len())?;
    for one in done.iter().take(ITEMS_SHOWN) {
        let targets = one.targets.as_slice();
        write!(f, ", number {} to {} targets", one.number, targets.len())?;
        for target in targets.iter().take(ITEMS_SHOWN) {
            write!(f, " {}", target.0)?;
        }
    }
    Ok(())
}
