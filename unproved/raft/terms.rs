//! A member that has entries of term 1 leads term 3 and adds one of that term. That a majority has those of
//! term 1 commits nothing, and that it has the one of term 3 commits all (Ongaro's dissertation, section
//! 3.6.2).

use crate::party::Party;
use anyhow::{Context, Result, bail, ensure};
use qq_raft_msg::{MemberState, Role};

/// The commands of term 1, more than one message holds.
const COMMANDS: u64 = 300;

/// The entries of all terms: each of the two leaders adds one of its own.
const ALL: u64 = COMMANDS + 2;

/// The rounds after which all has to be committed.
const ROUNDS: u32 = 100;

fn state_of(party: &Party, node: u8) -> Result<MemberState> {
    party.member(node).context("a member is down")
}

/// Time passes at member 1, and its change is durable.
fn stand(party: &mut Party) -> Result<()> {
    party.tick(1)?;
    party.write_all()?;
    party.notice_all()
}

fn settle(party: &mut Party) -> Result<()> {
    for _ in 0..ROUNDS {
        let delivered = party.deliver_all()?;
        let written = party.write_all()?;
        party.notice_all()?;
        if delivered == 0 && written == 0 {
            return Ok(());
        }
    }
    bail!("messages don't end")
}

/// Member 1 has led term 1, and has entries of it that no other member has.
fn lead_first_term(party: &mut Party) -> Result<()> {
    stand(party)?;
    settle(party)?;
    for time in 0..COMMANDS {
        party.publish(1, time, 0, true)?;
    }
    party.write_all()?;
    party.reopen()
}

/// Member 1 leads term 3.
fn lead_third_term(party: &mut Party) -> Result<()> {
    stand(party)?;
    party.lose_all()?;
    stand(party)?;
    party.deliver_all()?;
    party.write_all()?;
    party.notice_all()?;
    party.deliver(1)?;
    let state = state_of(party, 1)?;
    ensure!(
        state.role == Role::Leader && state.term.0 == 3,
        "member 1 doesn't lead term 3"
    );
    Ok(())
}

/// The first message reaches its member. Returns whether it informs the leader of entries of term 1 alone: member
/// 2 has commands of term 1, and not yet the entry of term 3.
fn take_first(party: &mut Party) -> Result<bool> {
    let last = state_of(party, 2)?.last.0;
    let is_for_leader = party.receiver(1).is_some_and(|receiver| receiver.0 == 1);
    party.deliver(1)?;
    let commit = state_of(party, 1)?.commit.0;
    ensure!(
        commit == 0 || commit == ALL,
        "an entry of an older term was committed by counting"
    );
    Ok(is_for_leader && 1 < last && last < ALL)
}

/// Members take messages until all is committed. Nothing is committed before the entry of term 3 is, though the
/// leader knows that a majority has entries of term 1.
fn commit_at_once(party: &mut Party) -> Result<()> {
    let mut told = false;
    for _ in 0..ROUNDS {
        party.write_all()?;
        party.notice_all()?;
        for _ in 0..party.messages() {
            told |= take_first(party)?;
        }
    }
    ensure!(
        state_of(party, 1)?.commit.0 == ALL,
        "the entry of term 3 isn't committed"
    );
    ensure!(told, "no answer tells of an entry of term 1 alone");
    Ok(())
}

pub fn run(rt: HostRuntime) -> Result<()> {
    let mut party = Party::new(rt.alloc(), 3)?;
    lead_first_term(&mut party)?;
    lead_third_term(&mut party)?;
    commit_at_once(&mut party)?;
    println!(rt; "an entry of an older term is committed by one of the leader's term alone")?;
    Ok(())
}
