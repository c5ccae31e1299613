//! How long the session gate takes for one check.
//!
//! Clients 1 to ENDED end, and OPEN ones behind them stay open, each with one number used. Then the next number of
//! each open session is checked in turn, a million times in all.
use crate::words::number;
use anyhow::Result;
use qq_entry::{Answer, Stamp};
use qq_sessions::{Gate, SessionId, Sessions};
use std::alloc::Global;
use std::time::Instant;

const CHECKS: u64 = 1_000_000;

/// A step through the open sessions that shares no factor with their number.
const STRIDE: u64 = 1_009;

fn stamp(client: u64, seq: u64) -> Stamp {
    Stamp {
        session: SessionId::client(client),
        seq,
        done: 0,
    }
}

fn open(alloc: Global, sessions: &mut Sessions, client: u64) -> Result<()> {
    let first = stamp(client, 1);
    sessions.reserve(alloc, first.session)?;
    sessions.admit(&first);
    sessions.keep(&first, Answer::Confirmed);
    Ok(())
}

fn end(alloc: Global, sessions: &mut Sessions, client: u64) -> Result<()> {
    let session = SessionId::client(client);
    sessions.reserve(alloc, session)?;
    sessions.end(session);
    Ok(())
}

fn sessions_of(alloc: Global, opened: u64, ended: u64) -> Result<Sessions> {
    let mut sessions = Sessions::new(alloc);
    for client in 1..=ended {
        open(alloc, &mut sessions, client)?;
        end(alloc, &mut sessions, client)?;
    }
    for client in ended + 1..=ended + opened {
        open(alloc, &mut sessions, client)?;
    }
    Ok(sessions)
}

// How many of the checks let their number in.
fn check_all(alloc: Global, sessions: &Sessions, opened: u64, ended: u64) -> Result<u64> {
    let mut passed = 0;
    let mut at = 0;
    for _ in 0..CHECKS {
        at = (at + STRIDE) % opened;
        if matches!(
            sessions.check(alloc, &stamp(ended + at + 1, 2))?,
            Gate::Fresh
        ) {
            passed += 1;
        }
    }
    Ok(passed)
}

pub fn run(rt: HostRuntime, words: &[String]) -> Result<()> {
    let (opened, ended) = (number(words, 0)?, number(words, 1)?);
    let sessions = sessions_of(rt.alloc(), opened, ended)?;
    let start = Instant::now(&rt)?;
    let passed = check_all(rt.alloc(), &sessions, opened, ended)?;
    let spent = start.elapsed(&rt)?.as_nanos();
    println!(rt;
        "{opened} {ended} {} ps a check, {passed} let in",
        spent * 1_000 / u128::from(CHECKS)
    )?;
    Ok(())
}
