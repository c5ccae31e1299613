//! Checks of what is taken back where memory runs out, and of a copy of consumers.
use crate::same::same;
use anyhow::{Result, ensure};
use cases::{Trials, run_each};
use qq_base::{ConsumerId, Duplicate, Index, Memory, SessionId, Term};
use qq_consumer::Consumers;
use qq_dead::Dead;
use qq_entry::{Message, Mode, ReadyRow, Reason};
use qq_ready::Ready;
use qq_undo::UndoDeque;
use std::alloc::Global;

#[derive(Drop)]
struct Digit(u64);

impl Duplicate for Digit {
    fn copy(&self, _: Global) -> Result<Self, Memory> {
        Ok(Digit(self.0))
    }
}

// The digits as a number.
fn number(digits: &UndoDeque<Digit>) -> u64 {
    digits
        .as_deque()
        .iter()
        .fold(0, |number, digit| number * 10 + digit.0)
}

// One, two, three, committed.
fn three_digits(alloc: Global) -> Result<UndoDeque<Digit>> {
    let mut digits = UndoDeque::new(alloc);
    for digit in 1..4 {
        digits.push_back(Digit(digit))?;
    }
    digits.commit();
    Ok(digits)
}

fn changes_are_taken_back_from_the_last_to_the_first(rt: HostRuntime) -> Result<()> {
    let alloc = rt.alloc();
    let mut digits = three_digits(alloc)?;
    same(digits.remove(1)?.0, 2)?;
    digits.insert(0, Digit(4))?;
    same(number(&digits), 413)?;
    ensure!(digits.pop_front()?.is_some());
    same(number(&digits), 13)?;
    digits.clear()?;
    digits.push_back(Digit(5))?;
    same(number(&digits), 5)?;
    digits.undo();
    same(number(&digits), 123)?;
    digits.undo();
    same(number(&digits), 123)
}

fn what_was_committed_stays(rt: HostRuntime) -> Result<()> {
    let alloc = rt.alloc();
    let mut digits = three_digits(alloc)?;
    digits.remove(1)?;
    digits.insert(0, Digit(4))?;
    digits.commit();
    digits.undo();
    same(number(&digits), 413)
}

// A message of ten bytes.
fn row(arrival: u64) -> ReadyRow {
    ReadyRow {
        index: Index(arrival),
        arrival,
        count: 0,
        message: Message {
            size: 10,
            content: None,
        },
    }
}

// The arrival of the next message, which is taken out.
fn pop(ready: &mut Ready) -> Result<Option<u64>> {
    Ok(ready.pop_next()?.map(|row| row.arrival))
}

fn ready_messages_are_taken_back(rt: HostRuntime) -> Result<()> {
    let alloc = rt.alloc();
    let mut ready = Ready::new(alloc);
    ready.push_new(row(1))?;
    ready.push_returned(row(2))?;
    ready.push_back(row(3))?;
    ready.push_returned(row(4))?;
    ready.commit();
    ready.push_new(row(5))?;
    same(pop(&mut ready)?, Some(2))?;
    ready.clear()?;
    same(ready.count(), 0)?;
    ready.undo();
    same((ready.count(), ready.bytes()), (4, 40))?;
    for arrival in [2, 4, 1, 3] {
        same(pop(&mut ready)?, Some(arrival))?;
    }
    Ok(())
}

// The number of the next message for the worker, which is then given to it.
fn give(dead: &mut Dead) -> Option<u64> {
    let number = dead.next_offer().map(|row| row.number);
    dead.give();
    number
}

fn dead_messages_are_taken_back(rt: HostRuntime) -> Result<()> {
    let alloc = rt.alloc();
    let mut dead = Dead::new(alloc);
    dead.add(row(1), Reason::Rejected)?;
    dead.add(row(2), Reason::Rejected)?;
    ensure!(dead.attach(Term(1)));
    same(give(&mut dead), Some(1))?;
    dead.commit();
    ensure!(dead.settle(Term(1), 1)?.is_some());
    same(give(&mut dead), Some(2))?;
    ensure!(dead.attach(Term(2)));
    dead.undo();
    same(dead.len(), 2)?;
    ensure!(dead.settle(Term(1), 2)?.is_none());
    ensure!(dead.settle(Term(1), 1)?.is_some());
    Ok(())
}

fn consumer(tag: u32) -> ConsumerId {
    ConsumerId {
        session: SessionId::client(1),
        tag,
    }
}

// A consumer with a tag above all before joins.
fn join(alloc: Global, consumers: &mut Consumers, tag: u32) -> Result<()> {
    consumers.subscribe(alloc, consumer(tag), Mode::Prefetch(1), tag - 1)?;
    Ok(())
}

// Those with the tags 1 to 3 have joined, in this order.
fn three_consumers(alloc: Global) -> Result<Consumers> {
    let mut consumers = Consumers::new(alloc);
    for tag in 1..4 {
        join(alloc, &mut consumers, tag)?;
    }
    consumers.commit();
    Ok(consumers)
}

fn next_tag(consumers: &Consumers) -> Option<u32> {
    consumers.next_waiting().map(|id| id.tag)
}

fn a_copy_of_consumers_goes_its_own_way(rt: HostRuntime) -> Result<()> {
    let alloc = rt.alloc();
    let consumers = three_consumers(alloc)?;
    let mut twin = consumers.copy(alloc)?;
    same((twin.len(), twin.turns()), (3, 3))?;
    ensure!(twin.cancel(consumer(1))?);
    same(next_tag(&twin), Some(2))?;
    same(next_tag(&consumers), Some(1))
}

fn a_consumer_that_left_is_at_its_place_again(rt: HostRuntime) -> Result<()> {
    let alloc = rt.alloc();
    let mut consumers = three_consumers(alloc)?;
    ensure!(consumers.cancel(consumer(2))?);
    ensure!(consumers.cancel(consumer(1))?);
    join(alloc, &mut consumers, 4)?;
    same((consumers.len(), next_tag(&consumers)), (2, Some(3)))?;
    consumers.undo();
    same((consumers.len(), consumers.turns()), (3, 3))?;
    for tag in 1..4 {
        same(next_tag(&consumers), Some(tag))?;
        ensure!(consumers.cancel(consumer(tag))?);
    }
    Ok(())
}

/// Runs them.
pub fn check(trials: &mut Trials) -> Result<()> {
    run_each!(trials;
        changes_are_taken_back_from_the_last_to_the_first,
        what_was_committed_stays,
        ready_messages_are_taken_back,
        dead_messages_are_taken_back,
        a_copy_of_consumers_goes_its_own_way,
        a_consumer_that_left_is_at_its_place_again,
    );
    Ok(())
}
