//! Checks of a client's numbers and of the session gate.
use crate::same::same;
use anyhow::{Result, ensure};
use cases::{Trials, run_each};
use qq_base::{Index, QueueId, SessionId};
use qq_entry::{Answer, Command, Delivery, Full, Message, Stamp, Unstamped};
use qq_model::Gate;
use qq_session::Publishing;
use qq_sessions::Sessions;
use std::alloc::Global;

// Session 1's numbers for queue 1.
fn new_client(alloc: Global) -> Publishing {
    Publishing::new(alloc, SessionId::client(1), QueueId(1))
}

fn only_the_first_answer_that_closes_a_number_counts(rt: HostRuntime) -> Result<()> {
    let alloc = rt.alloc();
    let mut client = new_client(alloc);
    client.hand(alloc, Unstamped::Get)?;
    client.hand(alloc, Unstamped::Get)?;
    ensure!(!client.answer(1, &Answer::Gap { next: 1 }));
    ensure!(!client.answer(1, &Answer::WindowFull));
    ensure!(!client.answer(1, &Answer::SessionsFull));
    ensure!(client.is_open(1));
    ensure!(client.answer(1, &Answer::Rejected(Full::Live)));
    ensure!(!client.answer(1, &Answer::Rejected(Full::Live)));
    ensure!(!client.answer(3, &Answer::Empty));
    ensure!(client.answer(2, &Answer::Forgotten));
    same((client.open_count(), client.low_mark()), (0, 2))
}

// The numbers and low marks of what is sent again.
fn resent(alloc: Global, client: &Publishing) -> Result<Vec<(u64, u64)>> {
    let mut stamps = Vec::new(alloc);
    for command in client.resend(alloc)? {
        if let Some(stamp) = command.stamp() {
            stamps.push((stamp.seq, stamp.done))?;
        }
    }
    Ok(stamps)
}

fn what_is_open_is_sent_again_with_its_old_stamps(rt: HostRuntime) -> Result<()> {
    let alloc = rt.alloc();
    let mut client = new_client(alloc);
    for _ in 0..3 {
        client.hand(alloc, Unstamped::Get)?;
    }
    ensure!(client.answer(1, &Answer::Empty));
    client.hand(alloc, Unstamped::Purge)?;
    ensure!(client.answer(3, &Answer::Empty));
    for _ in 0..2 {
        same(
            resent(alloc, &client)?.as_slice(),
            [(2, 0), (4, 1)].as_slice(),
        )?;
    }
    ensure!(client.answer(2, &Answer::Empty));
    ensure!(client.answer(4, &Answer::Purged { count: 0 }));
    same(resent(alloc, &client)?.len(), 0)
}

fn stamp(number: u64, seq: u64, done: u64) -> Stamp {
    Stamp {
        session: SessionId::client(number),
        seq,
        done,
    }
}

fn a_queue_sees_a_million_sessions(rt: HostRuntime) -> Result<()> {
    let alloc = rt.alloc();
    let (rows, ended, workers) = (Vec::new(alloc), Vec::new(alloc), Vec::new(alloc));
    let full = Sessions::from_parts(alloc, rows, ended, workers, 1_000_000)?;
    let gate = full.check(alloc, &stamp(1, 1, 0))?;
    ensure!(matches!(gate, Gate::SessionsFull));
    Ok(())
}

// The first command of a session is carried out: it gets the message of an entry.
fn get_first(alloc: Global, sessions: &mut Sessions, number: u64, index: u64) -> Result<()> {
    let first = stamp(number, 1, 0);
    let delivery = Delivery {
        index: Index(index),
        arrival: index,
        id: 0,
        count: 0,
        message: Message {
            size: 0,
            content: None,
        },
    };
    sessions.reserve(alloc, first.session)?;
    sessions.admit(&first);
    sessions.keep(&first, Answer::Got(delivery));
    Ok(())
}

fn an_answer_holds_its_message_until_it_is_forgotten(rt: HostRuntime) -> Result<()> {
    let alloc = rt.alloc();
    let mut sessions = Sessions::new(alloc);
    get_first(alloc, &mut sessions, 1, 9)?;
    get_first(alloc, &mut sessions, 2, 4)?;
    get_first(alloc, &mut sessions, 3, 4)?;
    same(sessions.kept_low(), Some(Index(4)))?;
    // The second session ends, and the third has its answer.
    sessions.reserve(alloc, SessionId::client(2))?;
    sessions.end(SessionId::client(2));
    same(
        (sessions.ended_at(0), sessions.ended_at(1)),
        (Some(2), None),
    )?;
    same(sessions.kept_low(), Some(Index(4)))?;
    sessions.advance(&stamp(3, 2, 1));
    same(sessions.kept_low(), Some(Index(9)))?;
    same(sessions.copy(alloc)?.kept_low(), Some(Index(9)))
}

/// Runs them.
pub fn check(trials: &mut Trials) -> Result<()> {
    run_each!(trials;
        only_the_first_answer_that_closes_a_number_counts,
        what_is_open_is_sent_again_with_its_old_stamps,
        a_queue_sees_a_million_sessions,
        an_answer_holds_its_message_until_it_is_forgotten,
    );
    Ok(())
}
