//! Checks of a reader and a writer of frames.
use crate::frames::PROTOCOL;
use anyhow::{Result, ensure};
use cases::{Trials, run_each};
use qq_amqp_wire::{Frame, Reader, WireFault, write_frame};
use qq_base::Bytes;
use std::alloc::Global;

/// The most bytes of a frame, in what follows.
const MAX: u32 = 4096;

/// A reader that has read what begins a connection.
fn begun(alloc: Global) -> Result<Reader> {
    let mut reader = Reader::new(alloc, MAX);
    ensure!(reader.feed(PROTOCOL).is_ok(), "out of memory");
    ensure!(
        matches!(reader.next_frame(), Ok(Some(Frame::Protocol))),
        "no protocol"
    );
    Ok(reader)
}

/// A frame with a body of so many bytes.
fn body(alloc: Global, len: usize) -> Result<Vec<u8>> {
    let frame = Frame::Body {
        channel: 1,
        bytes: Bytes::from_vec(vec![in alloc; 65; len]?),
    };
    let mut out = Vec::new(alloc);
    ensure!(write_frame(&frame, &mut out).is_ok(), "out of memory");
    Ok(out)
}

/// How many bytes the body of the next frame has.
fn next_len(reader: &mut Reader) -> Result<Option<usize>> {
    match reader.next_frame() {
        Ok(Some(Frame::Body { bytes, .. })) => Ok(Some(bytes.len())),
        _ => Ok(None),
    }
}

fn a_body_may_be_as_long_as_the_most_less_8(rt: HostRuntime) -> Result<()> {
    let alloc = rt.alloc();
    for len in [0, 1, 4087, 4088] {
        let mut reader = begun(alloc)?;
        ensure!(reader.feed(&body(alloc, len)?).is_ok(), "out of memory");
        ensure!(next_len(&mut reader)? == Some(len), "a body of {len}");
    }
    let mut reader = begun(alloc)?;
    ensure!(reader.feed(&body(alloc, 4089)?).is_ok(), "out of memory");
    let answer = reader.next_frame();
    ensure!(matches!(answer, Err(WireFault::TooLong)), "a body of 4089");
    Ok(())
}

fn a_higher_most_is_of_the_next_frame(rt: HostRuntime) -> Result<()> {
    let alloc = rt.alloc();
    let mut reader = begun(alloc)?;
    let long = body(alloc, 65_536)?;
    ensure!(reader.feed(&long[..6]).is_ok(), "out of memory");
    ensure!(matches!(reader.next_frame(), Ok(None)), "six bytes");
    reader.set_max(65_544);
    ensure!(reader.feed(&long[6..]).is_ok(), "out of memory");
    ensure!(next_len(&mut reader)? == Some(65_536), "a body of 65,536");
    Ok(())
}

fn a_thousand_frames_come_in_order(rt: HostRuntime) -> Result<()> {
    let alloc = rt.alloc();
    let mut bytes = Vec::new(alloc);
    for len in 0..1000 {
        bytes.extend_from_slice(&body(alloc, len)?)?;
    }
    let mut reader = begun(alloc)?;
    let mut next = 0usize;
    for piece in bytes.chunks(777) {
        ensure!(reader.feed(piece).is_ok(), "out of memory");
        while let Some(len) = next_len(&mut reader)? {
            ensure!(len == next, "a body of {len} in the place of {next}");
            next += 1;
        }
    }
    ensure!(next == 1000, "{next} frames");
    Ok(())
}

fn what_stood_before_a_written_frame_stays(rt: HostRuntime) -> Result<()> {
    let mut out = vec![in rt.alloc(); 1, 2, 3]?;
    ensure!(
        write_frame(&Frame::Heartbeat { channel: 513 }, &mut out).is_ok(),
        "out of memory"
    );
    ensure!(
        out.as_slice() == [1, 2, 3, 8, 2, 1, 0, 0, 0, 0, 206].as_slice(),
        "{out:?}"
    );
    Ok(())
}

pub fn check(trials: &mut Trials) -> Result<()> {
    run_each!(trials;
        a_body_may_be_as_long_as_the_most_less_8,
        a_higher_most_is_of_the_next_frame,
        a_thousand_frames_come_in_order,
        what_stood_before_a_written_frame_stays,
    );
    Ok(())
}
