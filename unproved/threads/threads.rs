//! Checks over two threads and three.

use crate::kept::{Fresh, Kept, entryless};
use anyhow::{Context, Result, ensure};
use cases::{Trials, run_each};
use qq_base::QueueId;
use qq_inbox::{
    Inbox, InboxPass, MarkSeat, Marks, Relay, Watch, hand_over, new_marks, wait_for_op,
};
use qq_log::Op;
use std::alloc::Global;
use std::collections::VecDeque;
use std::sync::Wait;
use std::thread;
use std::thread::Threads;

/// The ops of each of three queues, but for the first one, which has one more.
const ROUNDS: u64 = 33_333;

/// `rounds` ops of each of three queues, in turn, and one more of the first.
fn three_queues(alloc: Global, rounds: u64) -> Result<VecDeque<Op>> {
    let mut ops = VecDeque::new(alloc);
    for number in 1..=rounds {
        for queue in 1..=3 {
            ops.push_back(entryless(alloc, queue, number))?;
        }
    }
    ops.push_back(entryless(alloc, 1, rounds + 1))?;
    Ok(ops)
}

/// Offers each op until it is taken in, and looks at the second queue's mark after each. Returns how often that
/// was too high.
fn publish<R: Wait>(
    rt: &R,
    inbox: &Inbox<Fresh>,
    pass: &mut InboxPass,
    marks: &Marks,
    seat: &mut MarkSeat,
    ops: VecDeque<Op>,
) -> u64 {
    let mut early = 0;
    for op in ops {
        let number = op.number();
        let mut next = op;
        while let Err(back) = inbox.offer(rt, pass, next) {
            next = back;
            thread::yield_now();
        }
        if marks.seen(seat, QueueId(2)) > number {
            early += 1;
        }
    }
    early
}

/// Takes `count` ops, keeps and marks each. Returns what it kept, and how many came out of order.
fn write<R: Wait>(
    rt: &R,
    inbox: &Inbox<Fresh>,
    pass: &mut InboxPass,
    marks: &Marks,
    seat: &mut MarkSeat,
    count: usize,
) -> (Kept, u64) {
    let mut kept = Kept {
        last: [0; 3],
        stopped: false,
    };
    let mut wrong = 0;
    let mut left = count;
    while left > 0 {
        let Some(op) = inbox.take(rt, pass) else {
            thread::yield_now();
            continue;
        };
        left -= 1;
        if !kept.keep(&op) {
            wrong += 1;
        }
        marks.raise(seat, &kept, op.queue(), op.number());
    }
    (kept, wrong)
}

/// Looks at the three queues' marks, which rise in turn, the last one first, until the first queue's is at its
/// end. Returns how often a mark was lower than one that rises after it, or had fallen.
fn watch_marks(marks: &Marks, seat: &mut MarkSeat, end: u64) -> u64 {
    let mut wrong = 0;
    let mut before = 0;
    loop {
        let third = marks.seen(seat, QueueId(3));
        let second = marks.seen(seat, QueueId(2));
        let first = marks.seen(seat, QueueId(1));
        if third < before || second < third || first < second {
            wrong += 1;
        }
        if first >= end {
            return wrong;
        }
        before = third.max(first.saturating_sub(1));
    }
}

/// One thread offers 100,000 ops of three queues and looks at the marks, another takes them and marks them, and
/// a third looks at the marks while they rise.
fn ops_of_three_queues_come_in_order_and_are_marked<R: Threads + Wait + Sync + AllocGlobal>(
    rt: &R,
) -> Result<()> {
    let alloc = rt.alloc();
    let ops = three_queues(alloc, ROUNDS)?;
    let count = ops.len();
    ensure!(count == 100_000);
    let (made, mut offering) = Inbox::<Fresh>::new(alloc, 512)?;
    let (table, mut raising) = new_marks(alloc, 3)?;
    let mut taking = made.split(&mut offering).ok().context("no split")?;
    let mut looking = table.split(&mut raising).ok().context("no split")?;
    let mut watching = table.split(&mut looking).ok().context("no split")?;
    let (inbox, marks) = (&made, &table);
    let (early, ((kept, wrong), fallen)) = thread::join(
        rt,
        || publish(rt, inbox, &mut offering, marks, &mut looking, ops),
        || {
            thread::join(
                rt,
                || write(rt, inbox, &mut taking, marks, &mut raising, count),
                || watch_marks(marks, &mut watching, ROUNDS + 1),
            )
        },
    );
    ensure!((early, wrong, fallen) == (0, 0, 0));
    ensure!(kept.last == [ROUNDS + 1, ROUNDS, ROUNDS]);
    inbox.join(&mut offering, taking);
    marks.join(&mut raising, looking);
    marks.join(&mut raising, watching);
    ensure!(inbox.take(rt, &mut offering) == None);
    ensure!(marks.seen(&mut raising, QueueId(1)) == ROUNDS + 1);
    ensure!(marks.seen(&mut raising, QueueId(3)) == ROUNDS);
    Ok(())
}

fn a_list_is_handed_over_whole<R: Threads + Wait + Sync + AllocGlobal>(rt: &R) -> Result<()> {
    let alloc = rt.alloc();
    let wanted = three_queues(alloc, 100)?;
    let Relay {
        taken,
        inbox,
        mut pass,
    } = hand_over::<Fresh, R>(rt, alloc, 2, three_queues(alloc, 100)?)?;
    ensure!(taken == wanted);
    ensure!(inbox.take(rt, &mut pass) == None);
    Ok(())
}

fn an_op_is_waited_for<R: Threads + Wait + Sync + AllocGlobal>(rt: &R) -> Result<()> {
    let log = Kept {
        last: [0, 50, 0],
        stopped: false,
    };
    let Watch {
        sighting,
        marks,
        mut seat,
    } = wait_for_op(rt, rt.alloc(), &log, QueueId(2), 20)?;
    ensure!(sighting.seen >= 20 && sighting.seen <= 50 && sighting.looks > 0);
    ensure!(marks.seen(&mut seat, QueueId(2)) == 50);
    Ok(())
}

pub fn check<R: Threads + Wait + Sync + AllocGlobal>(rt: &R, trials: &mut Trials) -> Result<()> {
    run_each!(
        trials, rt;
        ops_of_three_queues_come_in_order_and_are_marked,
        a_list_is_handed_over_whole,
        an_op_is_waited_for,
    );
    Ok(())
}
