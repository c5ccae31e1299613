//! A check of brokers over disks that a program hands in.

use crate::runs::four_takers;
use anyhow::{Result, bail, ensure};
use cases::{Trials, run_each};
use qq_base::QueueId;
use qq_broker::{Broker, Pumped, StepFault, open_disks, reopen_disks, step};
use qq_mem_disk::MemDisk;
use qq_ports::MemYard;
use qq_script_lines::{Place, parse_line};
use qq_route::Setup;
use qq_taker::{Desk, Taker};

/// A line stands in no client's section.
const PLACE: Place = Place {
    number: 1,
    run: false,
    section: None,
};

/// What a broker answers to lines.
pub fn serve<T: Taker>(
    rt: HostRuntime,
    broker: &mut Broker<MemDisk>,
    takers: &mut Desk<T>,
    lines: &[&str],
) -> Result<String> {
    let alloc = rt.alloc();
    let mut yard = MemYard::new(Vec::new(alloc), Vec::new(alloc));
    let mut text = String::new(alloc);
    for line in lines {
        let Ok(said) = parse_line(alloc, line.as_bytes(), broker.setup(), PLACE) else {
            bail!("{line:?} is refused");
        };
        match step(broker, alloc, said, &mut yard, takers) {
            Ok(answer) => text.push_str(str::from_utf8(answer.as_slice())?)?,
            Err(fault) => bail!("{line:?}: {fault}"),
        }
    }
    Ok(text)
}

/// Three nodes with this many queues, each replicated over all of them.
fn setup(rt: HostRuntime, queues: u32) -> Result<Setup> {
    match Setup::plain(rt.alloc(), 3, 3, queues, 4_194_304) {
        Ok(setup) => Ok(setup),
        Err(_) => bail!("no memory"),
    }
}

/// A broker of them over new disks.
pub fn opened<T: Taker>(
    rt: HostRuntime,
    queues: u32,
    takers: &mut Desk<T>,
) -> Result<Broker<MemDisk>> {
    let alloc = rt.alloc();
    let disks = vec![in alloc;
        MemDisk::new(alloc),
        MemDisk::new(alloc),
        MemDisk::new(alloc),
    ]?;
    match open_disks(alloc, disks, setup(rt, queues)?, takers) {
        Ok(broker) => Ok(broker),
        Err(_) => bail!("not opened"),
    }
}

/// Its nodes stop, and it is opened again with what it knew, and then by the disks alone.
fn a_stopped_broker_goes_on_over_its_disks(rt: HostRuntime) -> Result<()> {
    let alloc = rt.alloc();
    let mut takers = four_takers(alloc)?;
    let mut broker = opened(rt, 1, &mut takers)?;
    let said = serve(rt, &mut broker, &mut takers, &["publish a", "publish b"])?;
    ensure!(said.as_str() == "confirmed 1\nconfirmed 2\n", "{said}");
    ensure!(broker.pump(alloc, &mut takers) == Ok(Pumped::Idle));

    let (disks, audits) = broker.crash_all(alloc);
    ensure!(disks.len() == 3);
    let mut text = Vec::new(alloc);
    ensure!(audits.write(alloc, QueueId(1), &mut text) == Ok(()));
    let audit = "audit q1 0 3\n1 1 noop 1 lead\n2 1 enqueue 1 1 1 confirmed 1\n\
                 3 1 enqueue 1 2 1 confirmed 2\n";
    ensure!(text.as_slice() == audit.as_bytes());

    let Ok(mut broker) = reopen_disks(alloc, disks, setup(rt, 1)?, audits, &mut takers) else {
        bail!("not opened again");
    };
    let lines = ["get", "crash 1 none", "crash 2 none", "publish c"];
    let said = serve(rt, &mut broker, &mut takers, &lines)?;
    ensure!(said.as_str() == "message 1 a\nno leader q1\n", "{said}");

    let (disks, audits) = broker.crash_all(alloc);
    drop(audits);
    let Ok(mut broker) = open_disks(alloc, disks, setup(rt, 1)?, &mut takers) else {
        bail!("not opened by the disks alone");
    };
    let said = serve(rt, &mut broker, &mut takers, &["get 2 q1"])?;
    ensure!(said.as_str() == "2 q1: message 2 b\n", "{said}");
    Ok(())
}

/// A taker's verdict is served in the step in which it sees the delivery, and one that was given isn't there any more.
fn a_taker_is_given_once(rt: HostRuntime) -> Result<()> {
    let alloc = rt.alloc();
    let mut takers = four_takers(alloc)?;
    let mut broker = opened(rt, 1, &mut takers)?;
    ensure!(takers.is_free(1));
    let lines = [
        "subscribe 1 q1 1 2",
        "attach 1 q1 1 1",
        "publish a",
        "attach 1 q1 1 2",
    ];
    let said = serve(rt, &mut broker, &mut takers, &lines)?;
    let wanted = "subscribed 1\nconfirmed 2\ntaken 1 1 1 settle\ndone\nbusy 1\n";
    ensure!(said.as_str() == wanted, "{said}");
    ensure!(!takers.is_free(1));
    ensure!(takers.is_free(2));

    let mut yard = MemYard::new(Vec::new(alloc), Vec::new(alloc));
    let Ok(line) = parse_line(alloc, b"attach 1 q1 2 1", broker.setup(), PLACE) else {
        bail!("the line is refused");
    };
    let Err(StepFault::NoSuch) = step(&mut broker, alloc, line, &mut yard, &mut takers) else {
        bail!("a taker was given twice");
    };
    Ok(())
}

pub fn check(trials: &mut Trials) -> Result<()> {
    run_each!(trials; a_stopped_broker_goes_on_over_its_disks, a_taker_is_given_once);
    Ok(())
}
