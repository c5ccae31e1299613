//! Disks that a group begins with, as `IsSupported` of `qq_raft_protocol` says what they support, and random ones.
//!
//! Entries of the same index and term are the same, so a log is the list of its entries' terms.

use crate::disk::Disk;
use crate::party::Party;
use crate::schedule::happen;
use crate::watch::Watch;
use anyhow::{Result, ensure};
use cases::Random;
use std::alloc::Global;

/// What a disk holds.
#[derive(Drop)]
pub struct Start {
    pub term: u64,
    /// The node that it voted for in this term, 0 for none.
    pub vote: u8,
    /// The terms of its entries.
    pub log: Vec<u64>,
}

fn is_majority(count: usize, starts: &[Start]) -> bool {
    starts.len() < 2 * count
}

/// Logs that have entries of one term agree up to the first of these (Ongaro's dissertation, section 3.5).
fn logs_match(one: &[u64], other: &[u64]) -> bool {
    (0..one.len()).all(|i| {
        (0..other.len()).all(|j| {
            let (a, b) = (&one[..=i], &other[..=j]);
            one[i] != other[j] || a.starts_with(b) || b.starts_with(a)
        })
    })
}

/// Terms don't fall along a log, and are at or below the disk's.
fn terms_rise(start: &Start) -> bool {
    let log = &start.log;
    (1..log.len()).all(|i| log[i - 1] <= log[i]) && log.iter().all(|term| *term <= start.term)
}

/// A majority is past a term, or has given its vote in it to a node that has come as far (section 3.4).
fn is_elected(term: u64, starts: &[Start]) -> bool {
    (0..starts.len()).any(|node| {
        let voters = starts.iter().filter(|start| {
            term < start.term || (start.term == term && usize::from(start.vote) == node + 1)
        });
        term <= starts[node].term && is_majority(voters.count(), starts)
    })
}

/// A list is a prefix of a majority's logs, and of each log with an entry of a later term than its last one.
fn carries(list: &[u64], starts: &[Start]) -> bool {
    let Some(last) = list.last() else {
        return false;
    };
    let having = starts.iter().filter(|start| start.log.starts_with(list));
    is_majority(having.count(), starts)
        && starts.iter().all(|start| {
            start.log.iter().all(|term| term <= last) || start.log.starts_with(list)
        })
}

/// A prefix of an audit begins such a list (section 3.6.3).
fn is_carried(front: &[u64], starts: &[Start]) -> bool {
    starts.iter().any(|start| {
        (1..=start.log.len()).any(|end| {
            let list = &start.log[..end];
            list.starts_with(front) && carries(list, starts)
        })
    })
}

/// Whether the disks of a group support an audit.
pub fn are_supported(audit: &[u64], starts: &[Start]) -> bool {
    starts.iter().all(|start| {
        terms_rise(start)
            && start.log.iter().all(|term| is_elected(*term, starts))
            && starts
                .iter()
                .all(|other| logs_match(&start.log, &other.log))
    }) && (1..=audit.len()).all(|end| is_carried(&audit[..end], starts))
}

/// A group that goes on over disks whose entries have bodies of `size` bytes, its audit being so many entries of the
/// first one.
pub fn open(alloc: Global, starts: &[Start], audited: usize, size: usize) -> Result<Party> {
    let mut disks = Vec::new(alloc);
    for start in starts {
        disks.push(Disk::of(alloc, start, size)?)?;
    }
    Party::over(alloc, disks, audited)
}

/// Entries of later terms after some of an older log.
fn later_log(random: &mut Random, alloc: Global, logs: &[Vec<u64>], term: u64) -> Result<Vec<u64>> {
    let mut log = Vec::new(alloc);
    if !logs.is_empty() {
        let older = &logs[random.below(logs.len() as u64) as usize];
        let kept = random.below(older.len() as u64 + 1) as usize;
        for own in &older[..kept] {
            log.push(*own)?;
        }
    }
    for _ in 0..random.below(3) {
        log.push(term)?;
    }
    Ok(log)
}

/// Disks with parts of the logs of a few leaders.
fn draw(random: &mut Random, alloc: Global, members: u8) -> Result<Vec<Start>> {
    let mut logs: Vec<Vec<u64>> = Vec::new(alloc);
    let last = random.below(4) + 1;
    for term in 1..=last {
        let log = later_log(random, alloc, &logs, term)?;
        logs.push(log)?;
    }
    let leader = random.below(u64::from(members)) as u8 + 1;
    let mut starts = Vec::new(alloc);
    for _ in 0..members {
        let whole = &logs[random.below(last) as usize];
        let mut log = Vec::new(alloc);
        for term in &whole[..random.below(whole.len() as u64 + 1) as usize] {
            log.push(*term)?;
        }
        let own = log.last().copied().unwrap_or(0);
        let vote = if random.below(4) == 0 { 0 } else { leader };
        starts.push(Start {
            term: own + random.below(last + 2 - own),
            vote,
            log,
        })?;
    }
    Ok(starts)
}

/// The longest prefix of the first disk's log that the disks support, if they support any.
fn supported(starts: &[Start]) -> Option<usize> {
    let log = &starts[0].log;
    (0..=log.len())
        .rev()
        .find(|end| are_supported(&log[..*end], starts))
}

/// A random schedule over these disks, whose audit begins with what it began with.
fn run_over(rt: HostRuntime, random: &mut Random, starts: &[Start], steps: u64) -> Result<bool> {
    let Some(audited) = supported(starts) else {
        return Ok(false);
    };
    let mut party = open(rt.alloc(), starts, audited, 0)?;
    let mut watch = Watch::new(rt.alloc());
    for time in 0..steps {
        let shown = happen(random, &mut party, 1_000 + time)?;
        watch.look_at(&party, &shown)?;
        let audit = party.audit();
        ensure!(
            (0..audited).all(|at| audit[at].term.0 == starts[0].log[at]),
            "an audited entry was replaced"
        );
    }
    Ok(true)
}

fn run_groups(rt: HostRuntime, seed: u64, draws: u64, steps: u64, members: u8) -> Result<()> {
    let mut random = Random::new(seed);
    let mut supported = 0;
    let mut audited = 0;
    for _ in 0..draws {
        let starts = draw(&mut random, rt.alloc(), members)?;
        if run_over(rt, &mut random, &starts, steps)? {
            supported += 1;
            audited += u64::from(self::supported(&starts) > Some(0));
        }
    }
    ensure!(audited >= draws / 50, "too few disks supported entries");
    println!(rt;
        "{members} members: {supported} of {draws} disks supported an audit, {audited} one with entries"
    )?;
    Ok(())
}

/// Fails where a group over random disks that support an audit replaces an entry of it, or what is watched of a
/// schedule is broken.
pub fn run(rt: HostRuntime, seed: u64, draws: u64, steps: u64) -> Result<()> {
    run_groups(rt, seed, draws, steps, 3)?;
    run_groups(rt, seed, draws, steps, 5)
}
