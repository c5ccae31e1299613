//! Cases of a script's lines: a line of a script, and below it what it says, or its first fault. In a line of
//! cases `<COUNT TEXT>` means COUNT copies of a text, in each of which `%` is the copy's number, from 1. The
//! lines are
//!
//! - `setup NODES GROUP QUEUES`: the setup from here on, with no definitions. At first it is of one node and
//!   one queue;
//! - `read TEXT`: the setup is that of an export, over 3 nodes;
//! - `section N`, `script`: where lines stand from here on, in a client's section or above all;
//! - `line TEXT`: a line of a script; `bytes DIGITS`: one of these bytes.

use crate::expand::Names;
use crate::said::Said;
use anyhow::{Result, bail};
use cases::{Words, answer_lines};
use qq_defs::{Setup, read};
use qq_script_lines::{Place, parse_line};
use std::alloc::Global;

/// The length of log files, which no line shows.
const LOG_BYTES: u64 = 65_536;

/// The setup that lines are read with, and where they stand.
#[derive(Drop)]
struct Reader {
    alloc: Global,
    setup: Setup,
    place: Place,
}

fn place_in(section: Option<u32>) -> Place {
    Place {
        number: 1,
        run: section.is_some(),
        section,
    }
}

impl Reader {
    fn new(alloc: Global) -> Result<Self> {
        Ok(Reader {
            alloc,
            setup: Setup::plain(alloc, 1, 1, 1, LOG_BYTES)?,
            place: place_in(None),
        })
    }

    /// Carries out a line of cases, and returns its answer.
    fn line(&mut self, line: &str) -> Result<String> {
        let alloc = self.alloc;
        let line = Names::new(alloc).expand(alloc, line)?;
        let words = &mut Words::new(line.as_str());
        match words.next() {
            "setup" => {
                let (nodes, group) = (words.number()?, words.number()?);
                self.setup = Setup::plain(alloc, nodes, group, words.number()?, LOG_BYTES)?;
            }
            "read" => self.setup = read(alloc, words.rest().as_bytes(), false, 3, LOG_BYTES)?,
            "section" => self.place = place_in(Some(words.number()?)),
            "script" => self.place = place_in(None),
            "line" => return self.parse(words.rest().as_bytes()),
            "bytes" => return self.parse(&hex::decode(alloc, words.rest())?),
            _ => bail!("no such line"),
        }
        Ok(String::new(alloc))
    }

    fn parse(&self, line: &[u8]) -> Result<String> {
        match parse_line(self.alloc, line, &self.setup, self.place) {
            Ok(said) => Ok(format!(in self.alloc; "{}", Said(&said))?),
            Err(fault) => Ok(format!(in self.alloc; "fault {fault}")?),
        }
    }
}

pub fn run(rt: HostRuntime) -> Result<()> {
    let mut reader = Reader::new(rt.alloc())?;
    answer_lines(rt, |line| reader.line(line))
}
