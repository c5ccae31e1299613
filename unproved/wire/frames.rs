//! Says in words which frames bytes are.
//!
//! A line is the most bytes of a frame, and bytes in hexadecimal digits, with blanks anywhere between two bytes;
//! `61*3` stands for `616161`, and `max=N` between bytes sets the most bytes from there on. Where `first` stands
//! before all, the bytes are those of a whole connection; else what begins one has been read.
//!
//! Answered are the frames, each with what is written of it, and then what the reader answers to one more ask. Each
//! line is read again cut at each of its bytes, and once with each byte by itself.
use crate::frame_words::FrameWords;
use anyhow::{Result, bail, ensure};
use cases::{Words, answer_lines};
use hex::FromHexError;
use qq_amqp_wire::{Frame, Reader, WireFault, write_frame};
use std::alloc::Global;

/// What begins a connection.
pub const PROTOCOL: &[u8; 8] = b"AMQP\x00\x00\x09\x01";

/// A frame after which nothing changes: a heartbeat.
const HEARTBEAT: [u8; 8] = [8, 0, 0, 0, 0, 0, 0, 206];

/// Bytes that are fed, or the most bytes of a frame from there on.
#[derive(Drop)]
enum Part {
    Bytes(Vec<u8>),
    Max(u32),
}

#[derive(Drop)]
struct Case {
    max: u32,
    is_first: bool,
    parts: Vec<Part>,
}

/// Where a case's bytes are cut: nowhere, before one byte, or before each.
#[derive(Clone, Copy)]
enum Cut {
    Nowhere,
    Before(usize),
    Everywhere,
}

impl Cut {
    fn is_before(self, place: usize) -> bool {
        match self {
            Cut::Nowhere => false,
            Cut::Before(at) => at == place,
            Cut::Everywhere => true,
        }
    }
}

fn add_bytes(alloc: Global, parts: &mut Vec<Part>, word: &str) -> Result<()> {
    let (digits, count) = word.split_once('*').unwrap_or((word, "1"));
    let part = match hex::decode(alloc, digits) {
        Ok(part) => part,
        Err(FromHexError::OutOfMemory) => bail!("out of memory"),
        Err(_) => bail!("not hexadecimal: {word}"),
    };
    let mut bytes = match parts.pop() {
        Some(Part::Bytes(bytes)) => bytes,
        Some(Part::Max(max)) => {
            parts.push(Part::Max(max))?;
            Vec::new(alloc)
        }
        None => Vec::new(alloc),
    };
    for _ in 0..count.parse::<u32>()? {
        bytes.extend_from_slice(&part)?;
    }
    parts.push(Part::Bytes(bytes))?;
    Ok(())
}

fn read_case(alloc: Global, line: &str) -> Result<Case> {
    let mut words = Words::new(line);
    let mut max = words.next();
    let is_first = max == "first";
    if is_first {
        max = words.next();
    }
    let mut parts = Vec::new(alloc);
    for word in words.rest().split_whitespace() {
        match word.strip_prefix("max=") {
            Some(number) => parts.push(Part::Max(number.parse()?))?,
            None => add_bytes(alloc, &mut parts, word)?,
        }
    }
    Ok(Case {
        max: max.parse()?,
        is_first,
        parts,
    })
}

/// Asks a reader until no frame comes, and adds each to the list.
fn drain(alloc: Global, reader: &mut Reader, frames: &mut Vec<Frame>) -> Result<Option<WireFault>> {
    for _ in 0..u64::MAX {
        match reader.next_frame() {
            Ok(Some(frame)) => frames.push(frame)?,
            Ok(None) => return Ok(None),
            Err(fault) => return Ok(Some(fault)),
        }
    }
    Ok(None)
}

fn feed(reader: &mut Reader, piece: &[u8]) -> Result<()> {
    ensure!(reader.feed(piece).is_ok(), "out of memory");
    Ok(())
}

/// The frames of a case that is cut so, and what is answered after them.
fn frames_of(alloc: Global, case: &Case, cut: Cut) -> Result<(Vec<Frame>, Option<WireFault>)> {
    let mut reader = Reader::new(alloc, case.max);
    let mut frames = Vec::new(alloc);
    if !case.is_first {
        feed(&mut reader, PROTOCOL)?;
        ensure!(
            matches!(reader.next_frame(), Ok(Some(Frame::Protocol))),
            "the protocol isn't read"
        );
    }
    let mut place = 0usize;
    let mut fault = None;
    for part in &case.parts {
        match part {
            Part::Max(max) => reader.set_max(*max),
            Part::Bytes(bytes) => {
                let mut from = 0usize;
                for at in 0..bytes.len() {
                    if cut.is_before(place + at) {
                        feed(&mut reader, &bytes[from..at])?;
                        drain(alloc, &mut reader, &mut frames)?;
                        from = at;
                    }
                }
                feed(&mut reader, &bytes[from..])?;
                place += bytes.len();
                fault = drain(alloc, &mut reader, &mut frames)?;
            }
        }
    }
    if fault.is_some() {
        reader.set_max(u32::MAX);
        feed(&mut reader, &HEARTBEAT)?;
        let later = drain(alloc, &mut reader, &mut frames)?;
        ensure!(later == fault, "after the fault it answers {later:?}");
    }
    Ok((frames, fault))
}

/// How many bytes the frame at the front of these takes.
fn size_at(bytes: &[u8]) -> usize {
    match bytes {
        [b'A', ..] => 8,
        [_, _, _, a, b, c, d, ..] => 8 + u32::from_be_bytes([*a, *b, *c, *d]) as usize,
        _ => 0,
    }
}

/// The frames in words, one a line, with what is written of each that isn't spelled so.
fn words_of(
    alloc: Global,
    frames: &[Frame],
    fault: Option<WireFault>,
    bytes: &[u8],
) -> Result<String> {
    let mut text = String::new(alloc);
    let mut place = 0usize;
    for frame in frames {
        let mut written = Vec::new(alloc);
        ensure!(write_frame(frame, &mut written).is_ok(), "out of memory");
        let end = place + size_at(&bytes[place.min(bytes.len())..]);
        let is_alike = bytes.get(place..end) == Some(written.as_slice());
        place = end;
        writeln!(text, "{}", FrameWords(frame))?;
        if !is_alike {
            writeln!(text, "written {}", hex::encode(alloc, &written)?)?;
        }
    }
    match fault {
        None => text.push_str("nothing more\n")?,
        Some(fault) => writeln!(text, "{fault:?}")?,
    }
    Ok(text)
}

fn answer(alloc: Global, line: &str) -> Result<String> {
    let case = read_case(alloc, line)?;
    let mut bytes = Vec::new(alloc);
    for part in &case.parts {
        if let Part::Bytes(part) = part {
            bytes.extend_from_slice(part)?;
        }
    }
    let (frames, fault) = frames_of(alloc, &case, Cut::Nowhere)?;
    let text = words_of(alloc, &frames, fault, &bytes)?;
    for place in 0..bytes.len().min(300) {
        let (frames, fault) = frames_of(alloc, &case, Cut::Before(place))?;
        let other = words_of(alloc, &frames, fault, &bytes)?;
        ensure!(other == text, "cut before byte {place} it is {other}");
    }
    let (frames, fault) = frames_of(alloc, &case, Cut::Everywhere)?;
    let other = words_of(alloc, &frames, fault, &bytes)?;
    ensure!(other == text, "byte for byte it is {other}");
    Ok(text)
}

/// Answers each line of bytes of the input.
pub fn run_frames(rt: HostRuntime) -> Result<()> {
    answer_lines(rt, |line| answer(rt.alloc(), line))
}
