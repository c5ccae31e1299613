//! What is seen of a group from step to step.

use crate::party::Party;
use anyhow::{Context, Result, ensure};
use qq_entry::{Answer, Entry};
use qq_group::Shown;
use qq_raft_msg::{MemberState, Role};
use std::alloc::Global;
use std::collections::BTreeMap;

/// The last entries of each member that are compared at each step.
const LAST: u64 = 8;

/// What was seen of a group so far.
#[derive(Drop)]
pub struct Watch {
    /// The rows that were shown.
    pub rows: u64,
    /// The leader of each term that had one.
    pub leaders: BTreeMap<u64, u8>,
    /// The length of the audit.
    audited: usize,
}

impl Watch {
    pub fn new(alloc: Global) -> Self {
        Watch {
            rows: 0,
            leaders: BTreeMap::new(alloc),
            audited: 0,
        }
    }

    /// Looks at the rows that an event has shown, and at the members.
    pub fn look_at(&mut self, party: &Party, shown: &Shown) -> Result<()> {
        self.look_at_rows(party.audit(), shown)?;
        let audited = party.audit().len();
        ensure!(self.audited <= audited, "the audit has become shorter");
        self.audited = audited;
        for node in 1..=party.count {
            if let Some(state) = party.member(node) {
                look_at_entries(party, node, &state)?;
                self.look_at_leader(node, &state)?;
            }
        }
        Ok(())
    }

    /// Each row is of the audit's entry at its index, by its term and time, and counts as many entries.
    fn look_at_rows(&mut self, audit: &[Entry], shown: &Shown) -> Result<()> {
        for applied in &shown.rows {
            let row = &applied.row;
            let entry = audit
                .get(row.index.0 as usize - 1)
                .context("a row is of no entry")?;
            let is_of_entry = row.entry.term == entry.term && row.entry.time == entry.time;
            let counts = Answer::Purged { count: row.index.0 };
            ensure!(
                is_of_entry && row.answer == counts,
                "a row isn't that of its entry"
            );
            self.rows += 1;
        }
        Ok(())
    }

    /// One member leads a term at most.
    fn look_at_leader(&mut self, node: u8, state: &MemberState) -> Result<()> {
        if state.role == Role::Leader {
            let leader = self.leaders.entry(state.term.0)?.or_insert(node);
            ensure!(*leader == node, "two members lead a term");
        }
        Ok(())
    }
}

/// The last entries that a member knows to be committed are the audit's.
fn look_at_entries(party: &Party, node: u8, state: &MemberState) -> Result<()> {
    let end = state.commit.0;
    let first = end.saturating_sub(LAST);
    let theirs = party.entries(node, first + 1, end)?;
    let ours = party
        .audit()
        .get(first as usize..end as usize)
        .context("the audit lacks an entry")?;
    ensure!(
        ours == theirs.as_slice(),
        "a member's entry isn't the audit's"
    );
    Ok(())
}
