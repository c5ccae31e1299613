//! A check of marks in one thread.

use crate::kept::Kept;
use anyhow::{Context, Result, ensure};
use cases::{Trials, run_each};
use qq_base::QueueId;
use qq_inbox::new_marks;

fn every_seat_sees_a_raise_and_a_stop<R: AllocGlobal>(rt: &R) -> Result<()> {
    let (marks, mut writer) = new_marks(rt.alloc(), 3)?;
    let mut first = marks.split(&mut writer).ok().context("no split")?;
    let mut second = marks.split(&mut first).ok().context("no split")?;
    let log = Kept {
        last: [4, 0, 9],
        stopped: true,
    };
    marks.raise(&mut writer, &log, QueueId(1), 4);
    marks.raise(&mut writer, &log, QueueId(3), 9);
    marks.raise(&mut writer, &log, QueueId(3), 7);
    for stopped in [false, true] {
        if stopped {
            marks.stop(&mut writer, &log);
        }
        for seat in [&mut writer, &mut first, &mut second] {
            for (queue, last) in [(1, 4), (2, 0), (3, 9)] {
                ensure!(marks.seen(seat, QueueId(queue)) == last);
            }
            ensure!(marks.stopped(seat) == stopped);
        }
    }
    marks.join(&mut first, second);
    marks.join(&mut writer, first);
    ensure!(marks.seen(&mut writer, QueueId(3)) == 9);
    ensure!(marks.stopped(&mut writer));
    Ok(())
}

pub fn check<R: AllocGlobal>(rt: &R, trials: &mut Trials) -> Result<()> {
    run_each!(trials, rt; every_seat_sees_a_raise_and_a_stop);
    Ok(())
}
