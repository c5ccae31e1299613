//! Serves a script of publishes over the nodes of a cluster.
//!
//! So many messages with bodies of BODY bytes are published to QUEUES queues in turn, or to the first USED of them,
//! over NODES nodes, in groups of as many. With SENDS 0 a pump follows each; else one follows so many, at most 256
//! a queue. `run` runs the program over this script; `serve` has a broker that is open serve its lines, with no
//! opening, no audits and no end of nodes. Prints how many messages were confirmed, how many nanoseconds that took,
//! and how many KiB of memory the process had at most.
use crate::memory::most_memory;
use crate::words::{number, word};
use anyhow::{Result, bail, ensure};
use qq_broker::{Broker, open_disks, step};
use qq_mem_disk::MemDisk;
use qq_ports::{MemShelf, MemSink, MemSource, MemYard};
use qq_script_lines::{Place, parse_line};
use qq_route::Setup;
use qq_taker::{Desk, FixedTaker};
use std::alloc::Global;
use std::time::Instant;

/// More bytes than an answer and a row of the audit have.
const LINES_ROOM: u64 = 120;

/// More bytes than the head of an audit and its first row have.
const AUDIT_ROOM: u64 = 100;

/// How many bytes make a log file full, as a script has it by default.
const LOG_BYTES: u64 = 4_194_304;

/// A line stands in no client's section.
const PLACE: Place = Place {
    number: 1,
    run: false,
    section: None,
};

/// What is published, and where.
#[derive(Clone, Copy)]
struct Load {
    nodes: u64,
    queues: u64,
    used: u64,
    body: u64,
    sends: u64,
    messages: u64,
}

fn script(alloc: Global, load: Load) -> Result<Vec<u8>> {
    let mut text = String::new(alloc);
    if load.sends > 0 {
        text.push_str("manual\n")?;
    }
    for number in 0..load.messages {
        writeln!(
            text,
            "send 1 - q{} ={}",
            number % load.used + 1,
            load.body
        )?;
        if load.sends > 0 && (number + 1) % load.sends == 0 {
            text.push_str("pump\n")?;
        }
    }
    Ok(text.into_bytes())
}

fn words_of(alloc: Global, load: Load) -> Result<Vec<String>> {
    let mut words = Vec::new(alloc);
    words.push(String::from_str(alloc, "script")?)?;
    words.push(format!(in alloc; "--nodes={}", load.nodes)?)?;
    words.push(format!(in alloc; "--group={}", load.nodes)?)?;
    words.push(format!(in alloc; "--queues={}", load.queues)?)?;
    Ok(words)
}

// Nanoseconds of a run of the program, and how many messages it confirmed.
fn run_script(rt: HostRuntime, load: Load, text: &str) -> Result<(u128, usize)> {
    let alloc = rt.alloc();
    let words = words_of(alloc, load)?;
    let mut shelf = MemShelf::new(Vec::new(alloc), Vec::new(alloc));
    let mut yard = MemYard::new(Vec::new(alloc), Vec::new(alloc));
    let bytes = String::from_str(alloc, text)?.into_bytes();
    let mut source = MemSource::new(bytes, Vec::new(alloc));
    let room = usize::try_from((load.messages + 10) * LINES_ROOM + load.queues * AUDIT_ROOM)?;
    let mut sink = MemSink::new(alloc, room, Vec::new(alloc))?;
    let mut takers: Desk<FixedTaker> = Desk::new(alloc);

    let start = Instant::now(&rt)?;
    let status = qq_broker::run(
        &rt,
        &words,
        &mut source,
        &mut sink,
        &mut shelf,
        &mut yard,
        &mut takers,
    );
    let spent = start.elapsed(&rt)?.as_nanos();
    ensure!(status == 0, "the run has failed");
    Ok((spent, confirmed_in(sink.bytes())?))
}

fn confirmed_in(printed: &[u8]) -> Result<usize> {
    let lines = str::from_utf8(printed)?.lines();
    Ok(lines
        .filter(|line| line.starts_with("confirmed ") || line.contains(": confirmed "))
        .count())
}

fn opened(
    rt: HostRuntime,
    load: Load,
    takers: &mut Desk<FixedTaker>,
) -> Result<Broker<MemDisk>> {
    let alloc = rt.alloc();
    let mut disks = Vec::new(alloc);
    for _ in 0..load.nodes {
        disks.push(MemDisk::new(alloc))?;
    }
    let nodes = u8::try_from(load.nodes)?;
    let queues = u32::try_from(load.queues)?;
    let Ok(setup) = Setup::plain(alloc, nodes, nodes, queues, LOG_BYTES) else {
        bail!("no memory");
    };
    match open_disks(alloc, disks, setup, takers) {
        Ok(broker) => Ok(broker),
        Err(_) => bail!("not opened"),
    }
}

// Nanoseconds in which a broker serves the lines.
fn serve(rt: HostRuntime, load: Load, text: &str) -> Result<(u128, usize)> {
    let alloc = rt.alloc();
    let mut takers = Desk::new(alloc);
    let mut broker = opened(rt, load, &mut takers)?;
    let mut yard = MemYard::new(Vec::new(alloc), Vec::new(alloc));
    let mut printed = Vec::new(alloc);

    let start = Instant::now(&rt)?;
    for line in text.lines() {
        let Ok(said) = parse_line(alloc, line.as_bytes(), broker.setup(), PLACE) else {
            bail!("{line} is refused");
        };
        match step(&mut broker, alloc, said, &mut yard, &mut takers) {
            Ok(answers) => printed.extend_from_slice(answers.as_slice())?,
            Err(fault) => bail!("{fault}"),
        }
    }
    let spent = start.elapsed(&rt)?.as_nanos();
    Ok((spent, confirmed_in(printed.as_slice())?))
}

pub fn run(rt: HostRuntime, words: &[String]) -> Result<()> {
    let queues = number(words, 1)?;
    let load = Load {
        nodes: number(words, 0)?,
        queues,
        used: if words.len() > 6 { number(words, 6)? } else { queues },
        body: number(words, 2)?,
        sends: number(words, 3)?,
        messages: number(words, 4)?,
    };
    let script = script(rt.alloc(), load)?;
    let text = str::from_utf8(script.as_slice())?;
    let (spent, confirmed) = match word(words, 5)? {
        "run" => run_script(rt, load, text)?,
        "serve" => serve(rt, load, text)?,
        _ => bail!("neither run nor serve"),
    };
    println!(rt; "{confirmed} {spent} {}", most_memory(&rt)?)?;
    Ok(())
}
