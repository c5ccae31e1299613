//! Checks of indices that are held: the least one, one that two hold, and a copy.
use crate::same::same;
use anyhow::{Result, ensure};
use cases::{Trials, run_each};
use qq_base::Index;
use qq_live::Live;
use std::alloc::Global;

fn hold(live: &mut Live, index: u64) -> Result<()> {
    live.reserve(1)?;
    live.add(Index(index));
    Ok(())
}

// The indices 3, 5, 8 and 9, each held once.
fn four_held(alloc: Global) -> Result<Live> {
    let mut live = Live::new(alloc);
    for index in [5, 9, 3, 8] {
        hold(&mut live, index)?;
    }
    Ok(live)
}

fn the_least_index_is_at_hand(rt: HostRuntime) -> Result<()> {
    let alloc = rt.alloc();
    let mut live = four_held(alloc)?;
    ensure!(live.remove(Index(5)));
    ensure!(!live.remove(Index(5)));
    same(live.low(), Some(Index(3)))?;
    ensure!(live.remove(Index(3)));
    same(live.low(), Some(Index(8)))?;
    same(live.slots(), 2)?;
    ensure!(live.remove(Index(9)));
    ensure!(live.remove(Index(8)));
    same(live.low(), None)
}

fn what_two_hold_stays_until_both_let_go(rt: HostRuntime) -> Result<()> {
    let alloc = rt.alloc();
    let mut live = four_held(alloc)?;
    hold(&mut live, 3)?;
    same(live.slots(), 4)?;
    ensure!(live.remove(Index(3)));
    same(live.low(), Some(Index(3)))?;
    ensure!(live.remove(Index(3)));
    same(live.low(), Some(Index(5)))
}

fn a_copy_of_live_messages_keeps_its_own(rt: HostRuntime) -> Result<()> {
    let alloc = rt.alloc();
    let live = four_held(alloc)?;
    let mut twin = live.copy(alloc)?;
    ensure!(twin.remove(Index(3)));
    same(twin.low(), Some(Index(5)))?;
    same(live.low(), Some(Index(3)))?;
    same(live.len(), 4)
}

/// Runs them.
pub fn check(trials: &mut Trials) -> Result<()> {
    run_each!(trials;
        the_least_index_is_at_hand,
        what_two_hold_stays_until_both_let_go,
        a_copy_of_live_messages_keeps_its_own,
    );
    Ok(())
}
