//! Checks of an inbox in one thread.

use crate::kept::{Fresh, entryless};
use anyhow::{Context, Result, ensure};
use cases::{Trials, run_each};
use qq_inbox::Inbox;
use std::sync::Wait;

fn an_inbox_for_two_hands_a_third_op_back<R: Wait + AllocGlobal>(rt: &R) -> Result<()> {
    let op = |number| entryless(rt.alloc(), 1, number);
    let (inbox, mut pass) = Inbox::<Fresh>::new(rt.alloc(), 2)?;
    ensure!(inbox.offer(rt, &mut pass, op(1)) == Ok(()));
    ensure!(inbox.offer(rt, &mut pass, op(2)) == Ok(()));
    ensure!(inbox.offer(rt, &mut pass, op(3)) == Err(op(3)));
    ensure!(inbox.take(rt, &mut pass) == Some(op(1)));
    ensure!(inbox.offer(rt, &mut pass, op(3)) == Ok(()));
    ensure!(inbox.take(rt, &mut pass) == Some(op(2)));
    ensure!(inbox.take(rt, &mut pass) == Some(op(3)));
    ensure!(inbox.take(rt, &mut pass) == None);
    Ok(())
}

fn an_inbox_for_one_and_a_split_of_a_split<R: Wait + AllocGlobal>(rt: &R) -> Result<()> {
    let op = |number| entryless(rt.alloc(), 3, number);
    let (inbox, mut writer) = Inbox::<Fresh>::new(rt.alloc(), 1)?;
    let mut reader = inbox.split(&mut writer).ok().context("no split")?;
    let idle = inbox.split(&mut writer).ok().context("no split")?;
    let mut last = inbox.split(&mut reader).ok().context("no split")?;
    ensure!(inbox.offer(rt, &mut writer, op(1)) == Ok(()));
    ensure!(inbox.offer(rt, &mut writer, op(2)) == Err(op(2)));
    ensure!(inbox.take(rt, &mut last) == Some(op(1)));
    inbox.join(&mut reader, idle);
    inbox.join(&mut reader, last);
    ensure!(inbox.take(rt, &mut reader) == None);
    inbox.join(&mut writer, reader);
    ensure!(inbox.take(rt, &mut writer) == None);
    Ok(())
}

pub fn check<R: Wait + AllocGlobal>(rt: &R, trials: &mut Trials) -> Result<()> {
    run_each!(
        trials, rt;
        an_inbox_for_two_hands_a_third_op_back,
        an_inbox_for_one_and_a_split_of_a_split,
    );
    Ok(())
}
