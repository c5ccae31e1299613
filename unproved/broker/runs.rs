//! A run in memory, and a check of one whose source or sink fails.

use anyhow::{Result, ensure};
use cases::{Trials, run_each};
use qq_broker::run;
use qq_ports::{MemShelf, MemSink, MemSource, MemYard, Yard};
use qq_taker::{Desk, FixedTaker, Verdict};
use std::alloc::Global;

/// A run prints no more.
const ROOM: usize = 1 << 20;

/// A run's status, and what it has printed.
#[derive(Drop)]
pub struct Ran {
    pub status: u8,
    sink: MemSink,
}

impl Ran {
    pub fn printed(&self) -> Result<&str> {
        Ok(str::from_utf8(self.sink.bytes())?)
    }
}

/// The takers of the program: 1 settles, 2 returns, 3 discards, 4 keeps.
pub fn four_takers(alloc: Global) -> Result<Desk<FixedTaker>> {
    let mut takers = Desk::new(alloc);
    for verdict in [Verdict::Settle, Verdict::Return, Verdict::Discard, Verdict::Keep] {
        ensure!(takers.add(FixedTaker::new(verdict)) == Ok(()));
    }
    Ok(takers)
}

/// Runs a script with options over a yard, where the source and the sink fail at calls of these numbers, from
/// 1; none fails at 0.
pub fn serve<Y: Yard>(
    rt: HostRuntime,
    options: &[&str],
    yard: &mut Y,
    script: &str,
    read: u64,
    write: u64,
) -> Result<Ran> {
    let alloc = rt.alloc();
    let mut words = vec![in alloc; String::from_str(alloc, "script")?]?;
    for option in options {
        words.push(String::from_str(alloc, option)?)?;
    }
    let script = script.as_bytes().to_vec(alloc)?;
    let mut source = MemSource::new(script, vec![in alloc; read]?);
    let mut sink = MemSink::new(alloc, ROOM, vec![in alloc; write]?)?;
    let mut shelf = MemShelf::new(Vec::new(alloc), Vec::new(alloc));
    let mut takers = four_takers(alloc)?;
    let status = run(&rt, &words, &mut source, &mut sink, &mut shelf, yard, &mut takers);
    Ok(Ran { status, sink })
}

fn a_failing_source_or_sink_ends_the_run(rt: HostRuntime) -> Result<()> {
    let alloc = rt.alloc();
    for (script, read, write, status, printed) in [
        ("get\n", 1, 0, 5, "read fault\n"),
        // Within a line, and after a whole line.
        ("get\npubl", 2, 0, 5, "empty\nread fault\n"),
        ("get\n", 2, 0, 5, "empty\nread fault\n"),
        ("get\nget\n", 0, 2, 6, "empty\n"),
        // In the closing line, whose number is written by itself.
        ("get\nfrob\n", 0, 3, 6, "empty\nline "),
    ] {
        let mut yard = MemYard::new(Vec::new(alloc), Vec::new(alloc));
        let ran = serve(rt, &[], &mut yard, script, read, write)?;
        ensure!(ran.status == status, "{script:?}: status {}", ran.status);
        ensure!(
            ran.printed()? == printed,
            "{script:?}: {:?}",
            ran.printed()?
        );
    }
    Ok(())
}

fn a_failing_shelf_or_a_refused_export_ends_the_run(rt: HostRuntime) -> Result<()> {
    let alloc = rt.alloc();
    let made = "made queues 0 exchanges 0 bindings 0 skipped queues 0 bindings 0 other-vhosts 0\n";
    for (export, fail, write, status, printed) in [
        ("{\"queues\": []}", 0, 0, 0, made),
        ("{\"queues\": []}", 1, 0, 5, "read fault\n"),
        ("[]", 1, 0, 5, "read fault\n"),
        ("[]", 0, 0, 3, "definitions: not-object\n"),
        // In the first line, which is one piece.
        ("{\"queues\": []}", 0, 1, 6, ""),
        ("[]", 0, 1, 6, ""),
    ] {
        let words = vec![in alloc;
            String::from_str(alloc, "script")?,
            String::from_str(alloc, "--definitions=export")?,
        ]?;
        let file = (
            String::from_str(alloc, "export")?,
            export.as_bytes().to_vec(alloc)?,
        );
        let mut shelf = MemShelf::new(vec![in alloc; file]?, vec![in alloc; fail]?);
        let mut source = MemSource::new(Vec::new(alloc), Vec::new(alloc));
        let mut sink = MemSink::new(alloc, ROOM, vec![in alloc; write]?)?;
        let mut yard = MemYard::new(Vec::new(alloc), Vec::new(alloc));
        let mut takers = four_takers(alloc)?;
        let ended = run(
            &rt,
            &words,
            &mut source,
            &mut sink,
            &mut shelf,
            &mut yard,
            &mut takers,
        );
        ensure!(ended == status, "{export:?}: status {ended}");
        let text = str::from_utf8(sink.bytes())?;
        ensure!(text == printed, "{export:?}: {text:?}");
    }
    Ok(())
}

pub fn check(trials: &mut Trials) -> Result<()> {
    run_each!(
        trials;
        a_failing_source_or_sink_ends_the_run,
        a_failing_shelf_or_a_refused_export_ends_the_run
    );
    Ok(())
}
