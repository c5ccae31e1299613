//! A group of 3 members and one of 5 go through random events: time passes, commands are submitted, messages
//! are delivered in any order, lost and copied, ops are written, and noticed or not, and members crash and start
//! again over their disks as they are, one of them or all.
//!
//! At each step the last entries that a member knows to be committed are the audit's, each row that is shown is
//! of the audit's entry at its index, the audit hasn't become shorter, and one member leads a term at most.

use crate::party::Party;
use crate::watch::Watch;
use anyhow::{Result, ensure};
use cases::Random;
use qq_base::NodeId;
use qq_group::{Event, Shown};

/// The most messages that are on their way before a copy is made.
const MANY: u32 = 1_000;

/// A random place of the messages, from 1.
fn place_of(random: &mut Random, party: &Party) -> u32 {
    let count = u64::from(party.messages());
    random.below(count.max(1)) as u32 + 1
}

/// A message is lost or copied, or a member crashes.
fn disturb(random: &mut Random, party: &mut Party, node: u8) -> Result<Shown> {
    let place = place_of(random, party);
    party.step(match random.below(64) {
        0 => Event::Crash { node: NodeId(node) },
        1..24 => Event::Lose { place },
        _ if party.messages() > MANY => Event::Lose { place },
        _ => Event::Copy { place },
    })
}

/// What happens next, at this time.
pub fn happen(random: &mut Random, party: &mut Party, time: u64) -> Result<Shown> {
    let node = random.below(u64::from(party.count)) as u8 + 1;
    match random.below(256) {
        0..2 => party.tick(node),
        2..26 => party.publish(node, time, random.below(100) as usize, true),
        26..154 => party.deliver(place_of(random, party)),
        154..190 => {
            party.write(node)?;
            party.notice(node)
        }
        190..205 => party.write_each(node),
        205..210 => party.hesitate(node),
        210..216 => {
            party.start_again(node)?;
            party.notice_op(node, 0)
        }
        216..240 => {
            party.write(node)?;
            party.notice_op(node, 0)
        }
        _ => disturb(random, party, node),
    }
}

fn run_group(rt: HostRuntime, seed: u64, steps: u64, members: u8) -> Result<()> {
    let mut party = Party::new(rt.alloc(), members)?;
    let mut watch = Watch::new(rt.alloc());
    let mut random = Random::new(seed);
    for time in 0..steps {
        if random.below(1_024) == 0 {
            party.reopen()?;
        }
        let shown = happen(&mut random, &mut party, time)?;
        watch.look_at(&party, &shown)?;
    }
    ensure!(watch.rows >= steps / 200, "too few rows were shown");
    ensure!(
        watch.leaders.len() as u64 >= steps / 2_000,
        "too few members led"
    );
    println!(rt; "{members} members: what each has applied begins the audit")?;
    Ok(())
}

/// Fails where a member knows other entries to be committed than the audit has, or where too little happened
/// to tell.
pub fn run(rt: HostRuntime, seed: u64, steps: u64) -> Result<()> {
    run_group(rt, seed, steps, 3)?;
    run_group(rt, seed, steps, 5)
}
