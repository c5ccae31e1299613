//! Runs random entries through both machines.
//!
//! Queues have 200 entries each, and their arguments are drawn too. All commands come: of sessions that
//! number them well, twice or with gaps, of consumers with prefetch and link credit, for deliveries that are
//! out and that aren't. At each entry both machines answer alike, with the same effects, and what the machine
//! of parts tells of itself is what its users know.
//!
//! Printed is how many kinds of answers and effects were seen. Of the 25 kinds of answers three never come,
//! which need a crowd: too many open numbers, consumers and sessions (`cases/audits` has these).
use crate::draw::Draw;
use crate::pair::{Made, Pair};
use crate::random_command::draw_command;
use crate::random_queue::draw_args;
use crate::seen::Seen;
use crate::users::Users;
use anyhow::{Context, Result, ensure};
use cases::Random;
use qq_base::Term;
use qq_entry::{Answer, Effect, Entry, Shared};
use std::alloc::Global;

/// How many entries a queue has.
const QUEUE_ENTRIES: u64 = 200;

// What the machine of parts tells of itself is what its users know: a purge has removed as many messages as
// were ready, as many consumers are counted as weren't cancelled, and each message that was delivered is out.
fn check(alloc: Global, pair: &Pair, users: &Users, made: &Made, ready: u64) -> Result<()> {
    if let Answer::Purged { count } = &made.answer
        && made.fresh
    {
        ensure!(*count == ready, "the ready messages are counted wrong");
    }
    let (_, consumers) = pair.machine.counts();
    ensure!(
        consumers as usize == users.consumers.len(),
        "the consumers are counted wrong"
    );
    for effect in &made.effects {
        if let Effect::Deliver(consumer, delivery) = effect {
            let out = pair.machine.fetch(alloc, *consumer, delivery.id)?;
            let first = out.first().context("a delivery isn't out")?;
            ensure!(first == delivery, "another delivery is out");
        }
    }
    Ok(())
}

fn run_queue(alloc: Global, random: &mut Random, seen: &mut Seen) -> Result<()> {
    let mut users = Users::new(alloc)?;
    let mut pair = Pair::new(alloc, draw_args(alloc, random))?;
    for _ in 0..QUEUE_ENTRIES {
        let entry = Entry {
            term: Term(random.below(3)),
            time: random.below(9),
            command: Shared::new(alloc, draw_command(alloc, random, &mut users)?)?,
        };
        let (ready, _) = pair.machine.counts();
        let made = pair.apply(alloc, &entry)?;
        seen.add(&made)?;
        users.learn(entry.command.get(), &made)?;
        check(alloc, &pair, &users, &made, ready)?;
    }
    Ok(())
}

/// Runs so many random entries, in queues of random arguments.
pub fn run_random(rt: HostRuntime, seed: u64, entries: u64) -> Result<()> {
    let alloc = rt.alloc();
    let mut random = Random::new(seed);
    let mut seen = Seen::new(alloc);
    for _ in 0..entries.div_ceil(QUEUE_ENTRIES) {
        run_queue(alloc, &mut random, &mut seen)?;
    }
    println!(rt;
        "{} kinds of answers, {} of effects",
        seen.answers.len(),
        seen.effects.len()
    )?;
    Ok(())
}
