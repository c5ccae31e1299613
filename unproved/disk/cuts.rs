//! Checks of a server's log and of its ops.

use anyhow::{Result, ensure};
use cases::{Trials, run_each};
use qq_base::{Index, QueueId, Term};
use qq_entry::{Command, Entries, Entry, Shared};
use qq_log::{Lane, Log, Op, SnapshotHead};
use std::alloc::Global;

fn noop(alloc: Global, term: u64) -> Result<Entry> {
    Ok(Entry {
        term: Term(term),
        time: 0,
        command: Shared::new(alloc, Command::Noop { version: 1 })?,
    })
}

fn a_log_is_cut_at_both_ends(rt: HostRuntime) -> Result<()> {
    let alloc = rt.alloc();
    let mut log = Log::from_lane(Lane::empty(alloc, QueueId(1)));
    log.reserve(3)?;
    log.append(noop(alloc, 1)?);
    log.append(noop(alloc, 1)?);
    log.append(noop(alloc, 2)?);
    ensure!(log.last() == Index(3));
    ensure!(log.term_at(Index(0)) == Some(Term(0)));
    ensure!(log.term_at(Index(3)) == Some(Term(2)));
    ensure!(log.term_at(Index(4)) == None);
    log.rebase(SnapshotHead {
        index: Index(1),
        term: Term(1),
        through: Index(2),
    });
    ensure!(log.last() == Index(3));
    ensure!(log.entry(Index(1)).is_none());
    let kept = noop(alloc, 1)?;
    ensure!(log.entry(Index(2)).is_some_and(|entry| *entry == kept));
    log.keep_to(Index(2));
    ensure!(log.last() == Index(2));
    log.rebase(SnapshotHead {
        index: Index(2),
        term: Term(2),
        through: Index(2),
    });
    ensure!(log.last() == Index(2));
    ensure!(log.term_at(Index(2)) == Some(Term(2)));
    Ok(())
}

fn an_op_has_its_queue_and_number(rt: HostRuntime) -> Result<()> {
    let change = Op::Change {
        queue: QueueId(2),
        op: 7,
        term: Term(1),
        vote: None,
        keep: Index(0),
        entries: Entries::new(rt.alloc()),
    };
    ensure!(change.queue() == QueueId(2));
    ensure!(change.number() == 7);
    Ok(())
}

pub fn check(trials: &mut Trials) -> Result<()> {
    run_each!(
        trials;
        a_log_is_cut_at_both_ends,
        an_op_has_its_queue_and_number,
    );
    Ok(())
}
