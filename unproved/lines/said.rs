//! What a line of a script says, in words.

use qq_base::{Bytes, Ids, QueueId, SessionId};
use qq_disk::{Image, Tail};
use qq_entry::{Mode, Unstamped};
use qq_script_lines::{Nodes, ScriptLine};
use std::fmt;

/// A text up to this length is shown in full.
const SHOWN: usize = 40;

/// A text, or its length.
#[derive(Clone, Copy)]
struct Text<'a>(&'a str);

impl fmt::Display for Text<'_> {
    fn fmt<W: fmt::Write>(&self, f: &mut fmt::Formatter<W>) -> fmt::Result {
        if self.0.len() > SHOWN {
            return write!(f, "({} bytes)", self.0.len());
        }
        write!(f, "{:?}", self.0)
    }
}

/// A body as text, or as bytes where it is none.
#[derive(Clone, Copy)]
struct Body<'a>(&'a Bytes);

impl fmt::Display for Body<'_> {
    fn fmt<W: fmt::Write>(&self, f: &mut fmt::Formatter<W>) -> fmt::Result {
        match str::from_utf8(self.0.as_slice()) {
            Ok(text) => write!(f, "{}", Text(text)),
            Err(_) => write!(f, "{:?}", self.0.as_slice()),
        }
    }
}

/// A session at a queue.
#[derive(Clone, Copy)]
struct Client(SessionId, QueueId);

/// A session's consumer of a tag.
#[derive(Clone, Copy)]
struct Consumer(Client, u32);

impl fmt::Display for Client {
    fn fmt<W: fmt::Write>(&self, f: &mut fmt::Formatter<W>) -> fmt::Result {
        write!(f, "session {} queue {}", self.0.number, self.1.0)
    }
}

impl fmt::Display for Consumer {
    fn fmt<W: fmt::Write>(&self, f: &mut fmt::Formatter<W>) -> fmt::Result {
        let Consumer(Client(session, queue), tag) = self;
        write!(f, "session {} tag {tag} queue {}", session.number, queue.0)
    }
}

/// Up to four ids in full, or how many.
#[derive(Clone, Copy)]
struct List<'a>(&'a Ids);

impl fmt::Display for List<'_> {
    fn fmt<W: fmt::Write>(&self, f: &mut fmt::Formatter<W>) -> fmt::Result {
        match self.0.as_slice() {
            ids if ids.len() > 4 => write!(f, "{} ids", ids.len()),
            ids => write!(f, "ids {ids:?}"),
        }
    }
}

#[derive(Clone, Copy)]
struct Which<'a>(&'a Nodes);

impl fmt::Display for Which<'_> {
    fn fmt<W: fmt::Write>(&self, f: &mut fmt::Formatter<W>) -> fmt::Result {
        match self.0 {
            Nodes::One(node) => write!(f, "node {}", node.0),
            Nodes::All => f.write_str("all nodes"),
        }
    }
}

/// What a crash leaves of a file.
#[derive(Clone, Copy)]
struct Left<'a>(&'a Tail);

impl fmt::Display for Left<'_> {
    fn fmt<W: fmt::Write>(&self, f: &mut fmt::Formatter<W>) -> fmt::Result {
        match self.0 {
            Tail::Cut(count) => write!(f, "{count} bytes"),
            Tail::Junk(bytes) => write!(f, "junk {:?}", bytes.as_slice()),
            Tail::Whole => f.write_str("all"),
        }
    }
}

#[derive(Clone, Copy)]
struct Crash<'a>(&'a Nodes, &'a Image);

impl fmt::Display for Crash<'_> {
    fn fmt<W: fmt::Write>(&self, f: &mut fmt::Formatter<W>) -> fmt::Result {
        let Crash(nodes, image) = self;
        let (newest, others) = (Left(&image.newest_log), Left(&image.others));
        let removed = if image.removed_back { "back" } else { "absent" };
        write!(f, "crash {}: {newest} of the newest log, ", Which(nodes))?;
        write!(f, "{others} of others, removed files {removed}")
    }
}

/// A line of a script.
#[derive(Clone, Copy)]
pub struct Said<'a>(pub &'a ScriptLine);

impl fmt::Display for Said<'_> {
    fn fmt<W: fmt::Write>(&self, f: &mut fmt::Formatter<W>) -> fmt::Result {
        match self.0 {
            ScriptLine::Nothing => f.write_str("nothing"),
            ScriptLine::Publish { body } => write!(f, "publish {}", Body(body)),
            ScriptLine::Send {
                session,
                exchange,
                key,
                body,
            } => {
                let (exchange, key) = (Text(exchange.as_str()), Text(key.as_str()));
                write!(
                    f,
                    "send session {} exchange {exchange} key {key}",
                    session.number
                )?;
                write!(f, " body {}", Body(body))
            }
            ScriptLine::Client {
                session,
                queue,
                body,
            } => write_command(f, Client(*session, *queue), body),
            ScriptLine::Attach {
                session,
                queue,
                tag,
                taker,
            } => write!(
                f,
                "attach session {} tag {tag} queue {} taker {taker}",
                session.number, queue.0
            ),
            ScriptLine::End { session } => write!(f, "end session {}", session.number),
            ScriptLine::Resend { session } => write!(f, "resend session {}", session.number),
            ScriptLine::Mute { session, muted } => {
                let how = if *muted { "mute" } else { "unmute" };
                write!(f, "{how} session {}", session.number)
            }
            ScriptLine::Pace { auto } => f.write_str(if *auto { "auto" } else { "manual" }),
            ScriptLine::Pump => f.write_str("pump"),
            ScriptLine::Write { node } => write!(f, "write node {}", node.0),
            ScriptLine::Sync { node } => write!(f, "sync node {}", node.0),
            ScriptLine::Notice { node, queue } => {
                write!(f, "notice node {} queue {}", node.0, queue.0)
            }
            ScriptLine::Tick { node, queue } => write!(f, "tick node {} queue {}", node.0, queue.0),
            ScriptLine::Deliver { queue, message } => {
                write!(f, "deliver queue {} message {message}", queue.0)
            }
            ScriptLine::Lose { queue, message } => {
                write!(f, "lose queue {} message {message}", queue.0)
            }
            ScriptLine::Copy { queue, message } => {
                write!(f, "copy queue {} message {message}", queue.0)
            }
            ScriptLine::Crash { nodes, image } => write!(f, "{}", Crash(nodes, image)),
            ScriptLine::Restart { nodes } => write!(f, "restart {}", Which(nodes)),
            ScriptLine::Show { queue } => write!(f, "show queue {}", queue.0),
        }
    }
}

/// A client's command at a queue.
fn write_command<W: fmt::Write>(
    f: &mut fmt::Formatter<W>,
    client: Client,
    body: &Unstamped,
) -> fmt::Result {
    match body {
        Unstamped::Enqueue { message, .. } => write!(f, "enqueue {client} size {}", message.size),
        Unstamped::Get => write!(f, "get {client}"),
        Unstamped::Purge => write!(f, "purge {client}"),
        Unstamped::Subscribe { tag, mode } => match mode {
            Mode::Prefetch(prefetch) => {
                write!(f, "subscribe {} prefetch {prefetch}", Consumer(client, *tag))
            }
            Mode::Link => write!(f, "link {}", Consumer(client, *tag)),
        },
        Unstamped::Cancel { tag } => write!(f, "cancel {}", Consumer(client, *tag)),
        Unstamped::Credit {
            tag,
            count,
            credit,
            drain,
        } => {
            let how = if *drain { "drain" } else { "keep" };
            write!(f, "credit {} ", Consumer(client, *tag))?;
            write!(f, "count {count} credit {credit} {how}")
        }
        Unstamped::Settle { tag, ids } => write!(f, "settle {} {}", Consumer(client, *tag), List(ids)),
        Unstamped::Return { tag, ids } => write!(f, "return {} {}", Consumer(client, *tag), List(ids)),
        Unstamped::Discard { tag, ids } => write!(f, "discard {} {}", Consumer(client, *tag), List(ids)),
    }
}
