//! Checks of values that take turns, each in a thread of its own.

use anyhow::{Result, ensure};
use cases::{Trials, run_each};
use qq_base::Memory;
use qq_runner::{Turn, Turned, run_all};
use std::alloc::Global;
use std::sync::Wait;
use std::thread;
use std::thread::{Parker, Threads};

/// Counts down by one a turn, and then ends or is refused.
#[derive(Drop)]
struct Countdown {
    place: u64,
    left: u64,
    refused: bool,
}

impl Turn for Countdown {
    ghost name = { ? };

    ghost over = { ? };

    fn turn<W: Wait>(&mut self, _: &W, _: Global) -> Result<Turned, Memory> {
        if self.left > 0 {
            self.left -= 1;
            return Ok(match self.left % 3 {
                0 => Turned::Idle,
                _ => Turned::Worked,
            });
        }
        if self.refused {
            return Err(Memory::Want);
        }
        Ok(Turned::Ended)
    }

    fn rest<W: Wait>(&self, _: &W) {
        thread::yield_now();
    }
}

/// Works twice and then wakes the other, or rests until it is woken.
#[derive(Drop)]
struct Pair<'a> {
    bell: &'a Parker,
    wakes: bool,
    turns: u64,
}

impl Turn for Pair<'_> {
    ghost name = { ? };

    ghost over = { ? };

    fn turn<W: Wait>(&mut self, _: &W, _: Global) -> Result<Turned, Memory> {
        self.turns += 1;
        if self.wakes {
            self.bell.unpark();
        }
        Ok(match (self.turns, self.wakes) {
            (1, true) => Turned::Worked,
            (1, false) => Turned::Idle,
            _ => Turned::Ended,
        })
    }

    fn rest<W: Wait>(&self, rt: &W) {
        self.bell.park(rt);
    }
}

// The waker's turns don't wait, so this ends where both run in one thread too.
fn an_idle_value_rests_until_it_is_woken<R: Threads + Wait + Sync + AllocGlobal>(
    rt: &R,
) -> Result<()> {
    let bell = Parker::new();
    let mut values = Vec::new(rt.alloc());
    for wakes in [true, false] {
        values.push(Pair {
            bell: &bell,
            wakes,
            turns: 0,
        })?;
    }
    let values = run_all(rt, rt.alloc(), values);
    ensure!(values.iter().all(|value| value.turns == 2));
    Ok(())
}

fn each_value_is_turned_to_its_end_and_comes_back<R: Threads + Wait + Sync + AllocGlobal>(
    rt: &R,
) -> Result<()> {
    let mut values = Vec::new(rt.alloc());
    for place in 0..20 {
        values.push(Countdown {
            place,
            left: 1000 - 50 * place,
            refused: place % 4 == 3,
        })?;
    }
    let values = run_all(rt, rt.alloc(), values);
    ensure!(values.len() == 20);
    for (place, value) in values.iter().enumerate() {
        ensure!((value.place, value.left) == (place as u64, 0));
    }
    Ok(())
}

pub fn check<R: Threads + Wait + Sync + AllocGlobal>(rt: &R, trials: &mut Trials) -> Result<()> {
    run_each!(
        trials, rt;
        each_value_is_turned_to_its_end_and_comes_back,
        an_idle_value_rests_until_it_is_woken,
    );
    Ok(())
}
