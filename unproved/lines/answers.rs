//! Checks of answers and of audits' rows as text.

use anyhow::{Result, ensure};
use cases::{Trials, run_each};
use qq_base::{Bytes, Ids, Index, SessionId, Term, Text};
use qq_entry::{
    Answer, AuditRow, Cause, Command, Content, Deaths, Delivery, Entry, Full, Message, Shared,
    Stamp,
};
use qq_script::{answer_text, row_text};
use std::alloc::Global;

fn stamp(class: u8, owner: u32, number: u64, seq: u64) -> Stamp {
    Stamp {
        session: SessionId {
            class,
            owner,
            number,
        },
        seq,
        done: 0,
    }
}

/// An answer to a command with tag 8 has this line.
fn answer_reads(alloc: Global, stamp: Stamp, answer: Answer, wanted: &str) -> Result<()> {
    let command = Command::Cancel { stamp, tag: 8 };
    let queue = Text::from_str(alloc, "orders")?;
    let mut out = Vec::new(alloc);
    answer_text(alloc, true, &command, &queue, &answer, &mut out)?;
    let text = str::from_utf8(&out)?;
    ensure!(text == wanted, "{text:?} in place of {wanted:?}");
    Ok(())
}

fn answers_read_as_printed(rt: HostRuntime) -> Result<()> {
    let alloc = rt.alloc();
    let first = stamp(1, 0, 1, 7);
    answer_reads(
        alloc,
        first,
        Answer::Rejected(Full::Live),
        "rejected 7 live\n",
    )?;
    let refused = Answer::Refused(Cause::NoConsumer);
    answer_reads(alloc, first, refused, "refused no-consumer\n")?;
    answer_reads(alloc, first, Answer::Subscribed, "subscribed 8\n")?;
    answer_reads(
        alloc,
        first,
        Answer::Credited { drained: 2 },
        "credited 2\n",
    )?;
    answer_reads(alloc, first, Answer::Forgotten, "forgotten 7\n")?;
    let other = stamp(1, 0, 4, 9);
    answer_reads(alloc, other, Answer::Gap { next: 3 }, "4 orders: gap 3\n")?;
    let dead = stamp(2, 3, 5, 1);
    answer_reads(alloc, dead, Answer::Confirmed, "d3.5 orders: confirmed 1\n")
}

fn a_message_that_was_returned_says_how_often(rt: HostRuntime) -> Result<()> {
    let alloc = rt.alloc();
    let content = Content {
        body: Bytes::from_vec(b"ab".to_vec(alloc)?),
        key: Text::new(alloc),
        deaths: Deaths::new(alloc),
    };
    let delivery = Delivery {
        index: Index(4),
        arrival: 2,
        id: 0,
        count: 3,
        message: Message {
            size: 2,
            content: Some(Shared::new(alloc, content)?),
        },
    };
    answer_reads(
        alloc,
        stamp(1, 0, 1, 7),
        Answer::Got(delivery),
        "message 2/3 ab\n",
    )
}

/// The row of entry 12 in term 3 has this line.
fn row_reads(
    alloc: Global,
    command: Command,
    fresh: bool,
    answer: Answer,
    wanted: &str,
) -> Result<()> {
    let row = AuditRow {
        index: Index(12),
        entry: Entry {
            term: Term(3),
            time: 0,
            command: Shared::new(alloc, command)?,
        },
        fresh,
        answer,
    };
    let mut out = Vec::new(alloc);
    row_text(alloc, &row, &mut out)?;
    let text = str::from_utf8(&out)?;
    ensure!(text == wanted, "{text:?} in place of {wanted:?}");
    Ok(())
}

fn rows_read_as_printed(rt: HostRuntime) -> Result<()> {
    let alloc = rt.alloc();
    let stamped = stamp(1, 0, 4, 9);
    let get = Command::Get { stamp: stamped };
    row_reads(
        alloc,
        get,
        false,
        Answer::Empty,
        "12 3 get 4 9 empty again\n",
    )?;
    let get = Command::Get { stamp: stamped };
    row_reads(alloc, get, false, Answer::Ended, "12 3 get 4 9 ended\n")?;
    let settle = Command::Settle {
        stamp: stamp(2, 3, 5, 1),
        tag: 8,
        ids: Ids::from_vec(vec![in alloc; 5, 6]?),
    };
    row_reads(
        alloc,
        settle,
        true,
        Answer::Done,
        "12 3 settle d3.5 1 8 5,6 done\n",
    )
}

pub fn check(trials: &mut Trials) -> Result<()> {
    run_each!(
        trials;
        answers_read_as_printed,
        a_message_that_was_returned_says_how_often,
        rows_read_as_printed,
    );
    Ok(())
}
