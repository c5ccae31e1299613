//! Checks of the messages between servers with their bytes, and of the bag.

use anyhow::{Result, bail, ensure};
use cases::{Trials, run_each};
use qq_base::{Bytes, Index, NodeId, Term};
use qq_command::Refusal;
use qq_entry::{Command, Entries, Entry, Shared};
use qq_raft_msg::{
    AppendMsg, AppendedMsg, Bag, CopyFault, InstallMsg, InstalledMsg, NoSuch, Rpc, VoteMsg,
    VotedMsg, decode, encode,
};
use std::alloc::Global;

/// From 1 to 2 in term 3: the last entry is 4, of term 2.
const VOTE: &str = "010102 0000000000000003 0000000000000004 0000000000000002";

/// From 2 to 1 in term 3: granted.
const VOTED: &str = "020201 0000000000000003 01";

/// From 1 to 3 in term 3: after entry 1 of term 1, commit 1, one entry of term 3 and time 5.
const APPEND: &str = "030103 0000000000000003 0000000000000001 0000000000000001 0000000000000001 \
    00000001 0000000000000003 0000000a 0000000000000005 00 01";

/// The same for 64 entries, which follow.
const APPEND_64: &str = "030103 0000000000000003 0000000000000001 0000000000000001 \
    0000000000000001 00000040";

/// An entry of term 3 and time 5.
const NOOP: &str = "0000000000000003 0000000a 0000000000000005 00 01";

/// From 3 to 1 in term 3: not there, go on from 5.
const APPENDED: &str = "040301 0000000000000003 00 0000000000000005";

/// From 1 to 7 in term 3: entry 4 of term 2, through 6, two bytes.
const INSTALL: &str = "050107 0000000000000003 0000000000000004 0000000000000002 0000000000000006 \
    00000002 aabb";

/// From 7 to 1 in term 3: entry 4.
const INSTALLED: &str = "060701 0000000000000003 0000000000000004";

/// From 1 to 3 in term 3: an entry of term 3 follows.
const APPEND_OF_ONE: &str = "030103 0000000000000003 0000000000000001 0000000000000001 \
    0000000000000001 00000001 0000000000000003";

const ASKED: VoteMsg = VoteMsg {
    from: NodeId(1),
    to: NodeId(2),
    term: Term(3),
    last_index: Index(4),
    last_term: Term(2),
};

const GRANTED: VotedMsg = VotedMsg {
    from: NodeId(2),
    to: NodeId(1),
    term: Term(3),
    granted: true,
};

const REFUSED: AppendedMsg = AppendedMsg {
    from: NodeId(3),
    to: NodeId(1),
    term: Term(3),
    ok: false,
    index: Index(5),
};

const CURRENT: InstalledMsg = InstalledMsg {
    from: NodeId(7),
    to: NodeId(1),
    term: Term(3),
    index: Index(4),
};

/// The bytes of hexadecimal digits, which may have blanks between them.
fn bytes_of(alloc: Global, digits: &str) -> Result<Vec<u8>> {
    let digits: String = digits.split_whitespace().collect(alloc)?;
    Ok(hex::decode(alloc, digits.as_str())?)
}

/// Checks that these bytes are read as the message, whatever follows them, and that it is written as them.
fn stand_for(alloc: Global, digits: &str, wanted: &Rpc) -> Result<()> {
    let bytes = bytes_of(alloc, digits)?;
    let mut longer = bytes.clone()?;
    longer.push(7)?;
    let (rpc, taken) = decode(alloc, &longer)?;
    ensure!(taken == bytes.len());
    ensure!(rpc == *wanted);
    ensure!(encode(alloc, wanted)? == bytes);
    Ok(())
}

fn small_messages_have_their_bytes(rt: HostRuntime) -> Result<()> {
    let alloc = rt.alloc();
    stand_for(alloc, VOTE, &Rpc::Vote(ASKED))?;
    stand_for(alloc, VOTED, &Rpc::Voted(GRANTED))?;
    stand_for(alloc, APPENDED, &Rpc::Appended(REFUSED))?;
    stand_for(alloc, INSTALLED, &Rpc::Installed(CURRENT))
}

fn entries_and_snapshots_have_their_bytes(rt: HostRuntime) -> Result<()> {
    let alloc = rt.alloc();
    let noop = Entry {
        term: Term(3),
        time: 5,
        command: Shared::new(alloc, Command::Noop { version: 1 })?,
    };
    let append = AppendMsg {
        from: NodeId(1),
        to: NodeId(3),
        term: Term(3),
        prev_index: Index(1),
        prev_term: Term(1),
        commit: Index(1),
        entries: Entries::from_vec(vec![in alloc; noop]?),
    };
    stand_for(alloc, APPEND, &Rpc::Append(append))?;
    let install = InstallMsg {
        from: NodeId(1),
        to: NodeId(7),
        term: Term(3),
        index: Index(4),
        last_term: Term(2),
        through: Index(6),
        shadow: Bytes::from_vec(bytes_of(alloc, "aabb")?),
    };
    stand_for(alloc, INSTALL, &Rpc::Install(install))
}

/// Checks that bytes are refused for this cause.
fn refuses(alloc: Global, bytes: &[u8], wanted: Refusal) -> Result<()> {
    match decode(alloc, bytes) {
        Ok(_) => bail!("the bytes are a message"),
        Err(refusal) => {
            ensure!(refusal == wanted, "{refusal:?} in place of {wanted:?}");
            Ok(())
        }
    }
}

/// A message that says 64 entries and has `count`.
fn append_with(alloc: Global, count: usize) -> Result<Vec<u8>> {
    let mut bytes = bytes_of(alloc, APPEND_64)?;
    let entry = bytes_of(alloc, NOOP)?;
    for _ in 0..count {
        bytes.extend_from_slice(&entry)?;
    }
    Ok(bytes)
}

fn as_many_entries_are_read_as_are_said(rt: HostRuntime) -> Result<()> {
    let alloc = rt.alloc();
    let bytes = append_with(alloc, 64)?;
    let (rpc, taken) = decode(alloc, &bytes)?;
    ensure!(taken == 1447);
    ensure!(matches!(&rpc, Rpc::Append(append) if append.entries.len() == 64));
    ensure!(encode(alloc, &rpc)? == bytes);
    refuses(alloc, &bytes[..1446], Refusal::Short)?;
    refuses(alloc, &append_with(alloc, 63)?, Refusal::Short)
}

fn each_refusal_of_a_message_has_its_place(rt: HostRuntime) -> Result<()> {
    let alloc = rt.alloc();
    let refused = |digits: &str, wanted| refuses(alloc, &bytes_of(alloc, digits)?, wanted);
    refused("", Refusal::Short)?;
    refused("060701 0000000000000003 00000000000000", Refusal::Short)?;
    refused("00", Refusal::BadKind)?;
    refused("07", Refusal::BadKind)?;
    refused("0100", Refusal::BadField)?;
    refused("010108", Refusal::BadField)?;
    refused("020201 0000000000000003 02", Refusal::BadField)
}

fn an_entry_is_refused_as_its_own_decoder_does(rt: HostRuntime) -> Result<()> {
    let alloc = rt.alloc();
    let mut longer = bytes_of(alloc, APPEND_OF_ONE)?;
    longer.extend_from_slice(&[0, 4, 0, 1])?;
    refuses(alloc, &longer, Refusal::TooLarge)?;
    let mut unknown = bytes_of(alloc, APPEND_OF_ONE)?;
    unknown.extend_from_slice(&[0, 0, 0, 9, 0, 0, 0, 0, 0, 0, 0, 5, 255])?;
    refuses(alloc, &unknown, Refusal::BadKind)
}

fn a_bag_is_a_list_by_places(rt: HostRuntime) -> Result<()> {
    let alloc = rt.alloc();
    let mut bag = Bag::new(alloc);
    bag.put(Rpc::Vote(ASKED))?;
    bag.put(Rpc::Voted(GRANTED))?;
    bag.copy(alloc, 1)?;
    ensure!(bag.len() == 3);
    ensure!(matches!(bag.deliver(4), Err(NoSuch)));
    ensure!(matches!(bag.deliver(2), Ok(Rpc::Voted(_))));
    ensure!(matches!(bag.get(2), Some(Rpc::Vote(_))));
    ensure!(bag.lose(0) == Err(NoSuch));
    ensure!(bag.lose(1) == Ok(()));
    ensure!(bag.copy(alloc, 2) == Err(CopyFault::NoSuch));
    ensure!(bag.len() == 1);
    Ok(())
}

pub fn check(trials: &mut Trials) -> Result<()> {
    run_each!(
        trials;
        small_messages_have_their_bytes,
        entries_and_snapshots_have_their_bytes,
        as_many_entries_are_read_as_are_said,
        each_refusal_of_a_message_has_its_place,
        an_entry_is_refused_as_its_own_decoder_does,
        a_bag_is_a_list_by_places,
    );
    Ok(())
}
