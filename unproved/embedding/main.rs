//! A program with a queue of its own: it opens three nodes over folders, publishes, gets, and stops.

use anyhow::{Result, bail};
use qq_base::{Bytes, QueueId, SessionId, Text};
use qq_broker::open_disks;
use qq_dir_disk::DirDisk;
use qq_entry::{Answer, Content, Deaths, Message, Unstamped};
use qq_route::Setup;
use qq_taker::{Desk, FixedTaker};
use std::alloc::Global;

fn publish(alloc: Global, body: &str) -> Result<Unstamped> {
    let body = Bytes::from_vec(body.as_bytes().to_vec(alloc)?);
    let content = Content { body, key: Text::new(alloc), deaths: Deaths::new(alloc) };
    let Ok(message) = Message::new(alloc, content) else { bail!("too long, or no memory") };
    Ok(Unstamped::Enqueue { origin: None, message })
}

fn main(rt: HostRuntime) -> Result<()> {
    let (alloc, queue, session) = (rt.alloc(), QueueId(1), SessionId::client(1));
    let mut disks = Vec::new(alloc);
    for folder in ["data/node-1", "data/node-2", "data/node-3"] {
        disks.push(DirDisk::new(rt, alloc, String::from_str(alloc, folder)?))?;
    }
    let Ok(setup) = Setup::plain(alloc, 3, 3, 1, 4_194_304) else { bail!("no memory") };
    let mut takers: Desk<FixedTaker> = Desk::new(alloc);
    let Ok(mut broker) = open_disks(alloc, disks, setup, &mut takers) else { bail!("not opened") };
    for command in [publish(alloc, "a")?, publish(alloc, "b")?, Unstamped::Get] {
        let Ok(called) = broker.call(alloc, session, queue, command, &mut takers) else { bail!("no memory") };
        for row in called.rows.as_slice() {
            match &row.answer {
                Answer::Confirmed => println!(rt; "row {}: confirmed", row.index.0)?,
                Answer::Got(delivery) => println!(rt; "row {}: message {}", row.index.0, delivery.arrival)?,
                _ => println!(rt; "row {}: another answer", row.index.0)?,
            }
        }
    }
    let (_disks, _audits) = broker.crash_all(alloc);
    Ok(())
}
