//! A check of a node over a disk that an earlier run has left.

use crate::runs::serve;
use anyhow::{Result, ensure};
use cases::{Trials, run_each};
use qq_base::NodeId;
use qq_disk::{FileKind, FileName, Image, NodeDisk, Tail};
use qq_mem_disk::MemDisk;
use qq_ports::{Yard, YardFault};
use std::alloc::Global;

/// A log file, the worked one of `docs/STORAGE.md`: its header, and the first op of queue 1, a vote.
const EARLIER: [u8; 84] = [
    0x51, 0x51, 0x4c, 0x4f, 0x47, 0x01, 0x00, 0x00, 0x00, 0x00, 0x00, 0x00, 0x00, 0x01, 0x00, 0x00,
    0x00, 0x00, 0x00, 0x00, 0x00, 0x00, 0x00, 0x00, 0x00, 0x00, 0x00, 0x00, 0x00, 0x00, 0x52, 0xe4,
    0x11, 0xe6, 0x35, 0x87, 0x06, 0x8b, 0x00, 0x00, 0x00, 0x15, 0x01, 0x00, 0x00, 0x00, 0x01, 0x00,
    0x00, 0x00, 0x00, 0x00, 0x00, 0x00, 0x01, 0x00, 0x00, 0x00, 0x00, 0x00, 0x00, 0x00, 0x01, 0x01,
    0x00, 0x00, 0x00, 0x00, 0x00, 0x00, 0x00, 0x00, 0x00, 0x00, 0x00, 0x00, 0xf0, 0x17, 0xf8, 0x99,
    0x81, 0xc7, 0xdb, 0x97,
];

/// A yard whose disks have that log.
#[derive(Clone, Copy)]
struct UsedYard;

impl Yard for UsedYard {
    type Disk = MemDisk;

    ghost faults = { ? };
    ghost is_given = { ? };

    fn disk(&mut self, alloc: Global, _: Option<&str>, _: NodeId) -> Result<MemDisk, YardFault> {
        let mut disk = MemDisk::new(alloc);
        let log = FileName {
            kind: FileKind::Log,
            number: 1,
        };
        if let Err(_) = disk.append(alloc, log, &EARLIER) {
            return Err(YardFault::Failed);
        }
        let image = Image {
            newest_log: Tail::Whole,
            others: Tail::Whole,
            removed_back: false,
        };
        match disk.crash(alloc, &image) {
            Ok(disk) => Ok(disk),
            Err(_) => Err(YardFault::Failed),
        }
    }

    fn crash(&mut self, alloc: Global, _: MemDisk, _: &Image) -> Result<MemDisk, YardFault> {
        self.disk(alloc, None, NodeId(1))
    }
}

/// The vote in the first term stands, so the queue has a leader in the second one.
fn a_run_goes_on_with_what_an_earlier_one_has_left(rt: HostRuntime) -> Result<()> {
    let options = ["--queues=2", "--log-bytes=65536"];
    let ran = serve(rt, &options, &mut UsedYard, "publish a\n", 0, 0)?;
    ensure!(ran.status == 0);
    ensure!(
        ran.printed()?
            == "confirmed 1\naudit q1 0 2\n1 2 noop 1 lead\n2 2 enqueue 1 1 1 confirmed 1\n\
                audit q2 0 1\n1 1 noop 1 lead\n"
    );
    Ok(())
}

pub fn check(trials: &mut Trials) -> Result<()> {
    run_each!(trials; a_run_goes_on_with_what_an_earlier_one_has_left);
    Ok(())
}
