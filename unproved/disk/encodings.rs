//! Checks of log records and of file headers against their bytes.

use crate::logs::bytes_of;
use anyhow::{Result, ensure};
use cases::{Trials, run_each};
use qq_base::{Index, NodeId, QueueId, Term};
use qq_command::{Entries, decode};
use qq_log::{Carry, Op, Places, SnapshotHead, Span};
use qq_wal_record::{
    Header, LogRecord, MarkRoom, NoHeader, NoRecord, put_op_body, read_header, read_record,
    write_carry, write_header, write_marked,
};
use std::alloc::Global;

/// Queue 1 in file 1: op 3, term 1, vote 1, keep 1, and one entry of 62 bytes.
const CHANGE: &str =
    "0000005301000000010000000000000003000000000000000101000000000000000100000001000000000000 \
    0001000000320000000000000000010100000000000000000000000100000000000000010000000000000000 \
    00000000026161027131000078755e1619446a7f";

/// The entry of that change.
const ENTRY: &str =
    "0000000000000001000000320000000000000000010100000000000000000000000100000000000000010000 \
    000000000000000000000261610271310000";

/// Queue 3 in file 2: op 12, term 2, no vote, a snapshot in file 7, a segment in file 4.
const CARRY: &str =
    "0000004d0400000003000000000000000c000000000000000200000000000000000300000000000000010000 \
    0000000000050000000000000007000000010000000000000004000000000000000200000000000000060000 \
    00000000000934e59cfb32b302d2";

/// Queue 3 in file 2: op 13, the snapshot of CARRY in file 8.
const SNAPSHOT: &str =
    "000000200200000003000000000000000d000000000000000400000000000000020000000000000006000000 \
    00000000089f3150147f3bba7a";

/// Queue 3 in file 2: op 14, a segment in file 9 of entries 5 and 6.
const SEGMENT: &str =
    "000000180300000003000000000000000e000000000000000900000000000000050000000000000006495218 \
    f4ad508022";

/// File 3, which follows 84 bytes of file 1.
const HEADER: &str = "51514c4f4701000000000000000300000000000000010000000000000054b0ec9fad098c5884";

/// CHANGE with kind 5, marked anew.
const KIND_FIVE: &str =
    "0000005305000000010000000000000003000000000000000101000000000000000100000001000000000000 \
    0001000000320000000000000000010100000000000000000000000100000000000000010000000000000000 \
    0000000002616102713100009dca4bd55eaa315a";

/// CHANGE with vote 8, marked anew.
const VOTE_EIGHT: &str =
    "0000005301000000010000000000000003000000000000000108000000000000000100000001000000000000 \
    0001000000320000000000000000010100000000000000000000000100000000000000010000000000000000 \
    000000000261610271310000f7591eb31b5bff0d";

/// HEADER with version 9, marked anew.
const VERSION_NINE: &str =
    "51514c4f47090000000000000003000000000000000100000000000000541bf754d5af7bf813";

const HEAD: SnapshotHead = SnapshotHead {
    index: Index(4),
    term: Term(2),
    through: Index(6),
};

/// Checks that these bytes are read as the record, whatever follows them, and that it is written as them.
fn stand_for(alloc: Global, file: u64, digits: &str, wanted: LogRecord) -> Result<()> {
    let bytes = bytes_of(alloc, digits)?;
    let mut longer = bytes.clone()?;
    longer.push(7)?;
    let (record, taken) = read_record(alloc, file, &longer)?;
    ensure!(taken == bytes.len());
    ensure!(record == wanted);
    ensure!(written(alloc, file, &wanted)? == bytes);
    Ok(())
}

/// A record's bytes as the log writes them: a carry by itself, an op in a batch, which is of one record here.
fn written(alloc: Global, file: u64, record: &LogRecord) -> Result<Vec<u8>> {
    let mut out = Vec::new(alloc);
    match record {
        LogRecord::Carry(carry) => write_carry(file, carry, &mut out)?,
        LogRecord::Op(op) => {
            let mut body = Vec::new(alloc);
            put_op_body(&mut body, op)?;
            let length = body.len();
            write_marked(&mut out, &mut MarkRoom::new(alloc), file, &body, &[length])?;
        }
    }
    Ok(out)
}

fn a_change_has_its_bytes(rt: HostRuntime) -> Result<()> {
    let alloc = rt.alloc();
    let (entry, _) = decode(alloc, &bytes_of(alloc, ENTRY)?)?;
    let change = Op::Change {
        queue: QueueId(1),
        op: 3,
        term: Term(1),
        vote: Some(NodeId(1)),
        keep: Index(1),
        entries: Entries::from_vec(vec![in alloc; entry]?),
    };
    stand_for(alloc, 1, CHANGE, LogRecord::Op(change))
}

fn a_carry_has_its_bytes(rt: HostRuntime) -> Result<()> {
    let alloc = rt.alloc();
    let segment = Span {
        file: 4,
        segment: true,
        first: Index(2),
        last: Index(6),
    };
    let carry = Carry {
        queue: QueueId(3),
        op: 12,
        term: Term(2),
        vote: None,
        base: SnapshotHead {
            index: Index(3),
            term: Term(1),
            through: Index(5),
        },
        snapshot: 7,
        segments: Places::from_vec(vec![in alloc; segment]?),
        last: Index(9),
    };
    stand_for(alloc, 2, CARRY, LogRecord::Carry(carry))
}

fn a_snapshot_and_a_segment_have_their_bytes(rt: HostRuntime) -> Result<()> {
    let snapshot = Op::SnapshotMade {
        queue: QueueId(3),
        op: 13,
        head: HEAD,
        file: 8,
    };
    stand_for(rt.alloc(), 2, SNAPSHOT, LogRecord::Op(snapshot))?;
    let segment = Op::SegmentMade {
        queue: QueueId(3),
        op: 14,
        file: 9,
        first: Index(5),
        last: Index(6),
    };
    stand_for(rt.alloc(), 2, SEGMENT, LogRecord::Op(segment))
}

/// Why no record stands at the front of bytes of such a file.
fn refusal(alloc: Global, file: u64, bytes: &[u8]) -> Option<NoRecord> {
    read_record(alloc, file, bytes).err()
}

/// One bit of each byte is turned: the length is one or two too long or short, or the mark differs.
fn no_byte_of_a_change_may_differ(rt: HostRuntime) -> Result<()> {
    let mut bytes = bytes_of(rt.alloc(), CHANGE)?;
    for place in 0..bytes.len() {
        let wanted = if place < 3 {
            NoRecord::Short
        } else {
            NoRecord::Mark
        };
        bytes[place] ^= 1;
        ensure!(refusal(rt.alloc(), 1, &bytes) == Some(wanted));
        bytes[place] ^= 1;
    }
    Ok(())
}

fn each_refusal_of_a_record_has_its_place(rt: HostRuntime) -> Result<()> {
    let alloc = rt.alloc();
    let change = bytes_of(alloc, CHANGE)?;
    ensure!(refusal(alloc, 2, &change) == Some(NoRecord::Mark));
    ensure!(refusal(alloc, 1, &change[..107]) == Some(NoRecord::Short));
    ensure!(refusal(alloc, 1, &bytes_of(alloc, KIND_FIVE)?) == Some(NoRecord::Kind));
    ensure!(refusal(alloc, 1, &bytes_of(alloc, VOTE_EIGHT)?) == Some(NoRecord::Field));
    Ok(())
}

fn a_header_has_its_bytes(rt: HostRuntime) -> Result<()> {
    let bytes = bytes_of(rt.alloc(), HEADER)?;
    let header = Header {
        file: 3,
        previous: 1,
        good: 84,
    };
    ensure!(read_header(&bytes) == Ok(header));
    let mut out = Vec::new(rt.alloc());
    write_header(&header, &mut out)?;
    ensure!(out == bytes);
    Ok(())
}

fn a_header_of_another_version_is_refused(rt: HostRuntime) -> Result<()> {
    let bytes = bytes_of(rt.alloc(), VERSION_NINE)?;
    ensure!(read_header(&bytes) == Err(NoHeader::Version { byte: 9 }));
    Ok(())
}

fn no_byte_of_a_header_may_differ(rt: HostRuntime) -> Result<()> {
    let mut bytes = bytes_of(rt.alloc(), HEADER)?;
    for place in 0..bytes.len() {
        let wanted = if place < 5 {
            NoHeader::Magic
        } else {
            NoHeader::Mark
        };
        bytes[place] ^= 1;
        ensure!(read_header(&bytes) == Err(wanted));
        bytes[place] ^= 1;
    }
    ensure!(read_header(&bytes[..37]) == Err(NoHeader::Short));
    Ok(())
}

pub fn check(trials: &mut Trials) -> Result<()> {
    run_each!(
        trials;
        a_change_has_its_bytes,
        a_carry_has_its_bytes,
        a_snapshot_and_a_segment_have_their_bytes,
        no_byte_of_a_change_may_differ,
        each_refusal_of_a_record_has_its_place,
        a_header_has_its_bytes,
        a_header_of_another_version_is_refused,
        no_byte_of_a_header_may_differ,
    );
    Ok(())
}
