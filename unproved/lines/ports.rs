//! Checks of what is read and written: lines of bytes, and texts in pieces.

use anyhow::{Context, Result, ensure};
use cases::{Trials, run_each};
use qq_ports::{
    Failed, LineFault, Lines, MemSink, MemSource, Sink, Source, StdSink, StdSource, next_line,
    write_all,
};
use std::alloc::Global;

/// A line is given up at its first byte too many.
const TOO_LONG: LineFault = LineFault::TooLong { length: 70_001 };

/// The length of the line that is read from `letters` letters and an ending, or why none is given.
fn length_of(alloc: Global, letters: usize, ending: &[u8]) -> Result<Result<usize, LineFault>> {
    let mut bytes = vec![in alloc; b'x'; letters]?;
    bytes.extend_from_slice(ending)?;
    let mut input = MemSource::new(bytes, Vec::new(alloc));
    let line = next_line(alloc, &mut input, &mut Lines::new());
    Ok(line.map(|line| line.map_or(0, |line| line.len())))
}

fn a_line_has_at_most_70_000_bytes(rt: HostRuntime) -> Result<()> {
    let alloc = rt.alloc();
    ensure!(length_of(alloc, 70_000, b"\n")? == Ok(70_000));
    ensure!(length_of(alloc, 69_999, b"\r\nx")? == Ok(69_999));
    ensure!(length_of(alloc, 70_001, b"")? == Err(TOO_LONG));
    ensure!(length_of(alloc, 70_000, b"\r\n")? == Err(TOO_LONG));
    Ok(())
}

fn a_source_fails_in_mid_line(rt: HostRuntime) -> Result<()> {
    let alloc = rt.alloc();
    let mut input = MemSource::new(b"a\nb".to_vec(alloc)?, vec![in alloc; 2]?);
    let mut lines = Lines::new();
    let first = next_line(alloc, &mut input, &mut lines)?.context("no line")?;
    ensure!(first.as_slice() == b"a".as_slice());
    ensure!(next_line(alloc, &mut input, &mut lines).is_err());
    Ok(())
}

/// Takes one byte at a time.
#[derive(Drop)]
struct ByByte(MemSink);

impl Sink for ByByte {
    ghost written = { ? };

    ghost faults = { ? };

    fn write(&mut self, bytes: &[u8]) -> Result<usize, Failed> {
        self.0.write(&bytes[..bytes.len().min(1)])
    }
}

/// The result of writing a text where a sink has this room and one call fails, and what was written.
fn written(alloc: Global, room: usize, fails: u64) -> Result<(Result<(), Failed>, Vec<u8>)> {
    let mut out = ByByte(MemSink::new(alloc, room, vec![in alloc; fails]?)?);
    let result = write_all(&mut out, b"orders");
    Ok((result, out.0.bytes().to_vec(alloc)?))
}

fn a_text_is_written_in_pieces(rt: HostRuntime) -> Result<()> {
    let alloc = rt.alloc();
    ensure!(written(alloc, 6, 9)? == (Ok(()), b"orders".to_vec(alloc)?));
    ensure!(written(alloc, 4, 9)? == (Err(Failed), b"orde".to_vec(alloc)?));
    ensure!(written(alloc, 6, 1)? == (Err(Failed), Vec::new(alloc)));
    Ok(())
}

fn the_standard_streams_take_an_empty_piece(rt: HostRuntime) -> Result<()> {
    ensure!(StdSource::new(rt.stdin()).read(&mut [])? == 0);
    ensure!(StdSink::new(rt.stdout()).write(b"")? == 0);
    Ok(())
}

fn faults_have_texts(rt: HostRuntime) -> Result<()> {
    let text = format!(in rt.alloc(); "{TOO_LONG} {Failed}")?;
    ensure!(text.as_str() == "a line of more than 70000 bytes the outside has failed");
    Ok(())
}

pub fn check(trials: &mut Trials) -> Result<()> {
    run_each!(
        trials;
        a_line_has_at_most_70_000_bytes,
        a_source_fails_in_mid_line,
        a_text_is_written_in_pieces,
        the_standard_streams_take_an_empty_piece,
        faults_have_texts,
    );
    Ok(())
}
