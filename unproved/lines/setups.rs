//! Cases of definitions and of routes. In a line `<NAME>` means the text that `let NAME TEXT` gave, and
//! `<COUNT TEXT>` means COUNT copies of a text, in each of which `%` is the copy's number, from 1. The lines are
//!
//! - `nodes N`, `policies ignored` and `policies refused`: how exports are read from here on, at first over 3
//!   nodes with policies refused;
//! - `read TEXT`, `file NAME`, `bytes DIGITS`: an export is read, from the line, from a file of the folder
//!   that the program's word names, or from hexadecimal digits;
//! - `cut TEXT`: each shorter front of an export is read, down to the empty one;
//! - `arguments TEXT`: a quorum queue's arguments are read;
//! - `plain GROUP QUEUES`: the setup of QUEUES queues with no definitions.
//!
//! The routes are those of the last setup, or, after `routes`, the first ones of a broker. `-` is the empty
//! text.
//!
//! - `queue N NAME`, `exchange NAME KIND`, `bind EXCHANGE N KEY`: something is added; the latter two say `yes`
//!   or `no`;
//! - `kind EXCHANGE`, `targets EXCHANGE KEY`.

use crate::arguments::{Arguments, fault_text, setup_text};
use crate::expand::Names;
use anyhow::{Context, Result, bail};
use cases::{Words, answer_lines};
use qq_base::{QueueId, Text};
use qq_defs::{DefsFault, Setup, queue_args, read};
use qq_route::{ExchangeKind, RouteFault, Routes};
use serde_json::Value;
use std::alloc::Global;
use std::fs;

/// The length of log files that setups are read with.
const LOG_BYTES: u64 = 65_536;

/// How exports are read, and the routes that are asked.
#[derive(Drop)]
struct Setups<'a> {
    rt: HostRuntime,
    folder: &'a str,
    names: Names,
    nodes: u8,
    ignore_policies: bool,
    routes: Routes,
}

/// A name or a key.
fn text(words: &mut Words, alloc: Global) -> Result<Text> {
    match words.next() {
        "-" => Ok(Text::new(alloc)),
        word => Ok(Text::from_str(alloc, word)?),
    }
}

fn yes_or_no(yes: bool) -> &'static str {
    if yes { "yes" } else { "no" }
}

impl<'a> Setups<'a> {
    fn new(rt: HostRuntime, folder: &'a str) -> Result<Self> {
        Ok(Setups {
            rt,
            folder,
            names: Names::new(rt.alloc()),
            nodes: 3,
            ignore_policies: false,
            routes: Routes::new(rt.alloc())?,
        })
    }

    /// Carries out a line, and returns its answer.
    fn line(&mut self, line: &str) -> Result<String> {
        let alloc = self.rt.alloc();
        let line = self.names.expand(alloc, line)?;
        let words = &mut Words::new(line.as_str());
        match words.next() {
            "read" => self.read(words.rest().as_bytes()),
            "bytes" => self.read(&hex::decode(alloc, words.rest())?),
            "file" => {
                let path = format!(in alloc; "{}/{}", self.folder, words.next())?;
                self.read(&fs::read(&self.rt, path)?)
            }
            "cut" => self.cut(words.rest().as_bytes()),
            "arguments" => self.arguments(words.rest()),
            "plain" => {
                let group = words.number()?;
                let setup = Setup::plain(alloc, self.nodes, group, words.number()?, LOG_BYTES)?;
                self.take(setup)
            }
            "targets" => self.targets(words),
            call => Ok(String::from_str(alloc, self.change(call, words)?)?),
        }
    }

    /// A line on how exports are read, or on one exchange: its answer is a few words or none.
    fn change(&mut self, call: &str, words: &mut Words) -> Result<&'static str> {
        let alloc = self.rt.alloc();
        match call {
            "let" => self.names.put(alloc, words.next(), words.rest())?,
            "nodes" => self.nodes = words.number()?,
            "policies" => self.ignore_policies = words.next() == "ignored",
            "routes" => self.routes = Routes::new(alloc)?,
            "queue" => {
                let queue = QueueId(words.number()?);
                self.routes.add_queue(alloc, &text(words, alloc)?, queue)?;
            }
            "exchange" => {
                let name = text(words, alloc)?;
                let kind = match words.next() {
                    "direct" => ExchangeKind::Direct,
                    "fanout" => ExchangeKind::Fanout,
                    "topic" => ExchangeKind::Topic,
                    _ => bail!("no such kind"),
                };
                return Ok(yes_or_no(self.routes.add_exchange(alloc, &name, kind)?));
            }
            "bind" => {
                let exchange = text(words, alloc)?;
                let queue = QueueId(words.number()?);
                let key = text(words, alloc)?;
                return Ok(yes_or_no(self.routes.bind(alloc, &exchange, queue, &key)?));
            }
            "kind" => {
                return Ok(match self.routes.kind(&text(words, alloc)?) {
                    None => "no exchange",
                    Some(ExchangeKind::Direct) => "direct",
                    Some(ExchangeKind::Fanout) => "fanout",
                    Some(ExchangeKind::Topic) => "topic",
                });
            }
            _ => bail!("no such line"),
        }
        Ok("")
    }

    fn setup_of(&self, bytes: &[u8]) -> Result<Setup, DefsFault> {
        read(
            self.rt.alloc(),
            bytes,
            self.ignore_policies,
            self.nodes,
            LOG_BYTES,
        )
    }

    fn read(&mut self, bytes: &[u8]) -> Result<String> {
        match self.setup_of(bytes) {
            Ok(setup) => self.take(setup),
            Err(fault) => fault_text(self.rt.alloc(), &fault),
        }
    }

    /// Takes a setup's routes, and returns the setup in words.
    fn take(&mut self, setup: Setup) -> Result<String> {
        let text = setup_text(self.rt.alloc(), &setup)?;
        self.routes = setup.routes;
        Ok(text)
    }

    fn cut(&self, bytes: &[u8]) -> Result<String> {
        let alloc = self.rt.alloc();
        for length in 0..bytes.len() {
            if !matches!(self.setup_of(&bytes[..length]), Err(DefsFault::Json)) {
                return Ok(format!(in alloc; "{length} bytes are JSON")?);
            }
        }
        Ok(String::from_str(alloc, "no front is JSON")?)
    }

    fn arguments(&self, text: &str) -> Result<String> {
        let alloc = self.rt.alloc();
        let arguments = Value::from_str(alloc, text)?;
        match queue_args(alloc, self.nodes, QueueId(1), &arguments) {
            Ok(args) => Ok(format!(in alloc; "{}", Arguments(&args))?),
            Err(fault) => fault_text(alloc, &fault),
        }
    }

    fn targets(&self, words: &mut Words) -> Result<String> {
        let alloc = self.rt.alloc();
        let (exchange, key) = (text(words, alloc)?, text(words, alloc)?);
        let queues = match self.routes.targets(alloc, &exchange, &key) {
            Ok(queues) => queues,
            Err(RouteFault::NoExchange) => return Ok(String::from_str(alloc, "no exchange")?),
            Err(RouteFault::Memory(fault)) => return Err(fault).context("routes"),
        };
        let mut text = String::new(alloc);
        for queue in queues.as_slice() {
            write!(
                text,
                "{}{}",
                if text.is_empty() { "" } else { " " },
                queue.0
            )?;
        }
        if queues.as_slice().is_empty() {
            text.push_str("none")?;
        }
        Ok(text)
    }
}

pub fn run(rt: HostRuntime, folder: &str) -> Result<()> {
    let mut setups = Setups::new(rt, folder)?;
    answer_lines(rt, |line| setups.line(line))
}
