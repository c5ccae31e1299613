//! A check of how often a script's log begins a new file.

use crate::runs::serve;
use anyhow::{Result, ensure};
use cases::{Trials, run_each};
use qq_base::NodeId;
use qq_disk::{FileKind, Image, NodeDisk};
use qq_mem_disk::MemDisk;
use qq_ports::{Yard, YardFault};
use std::alloc::Global;

/// A yard that counts at a crash how many log files the disk has.
#[derive(Drop)]
struct CountingYard {
    logs: usize,
}

impl Yard for CountingYard {
    type Disk = MemDisk;

    ghost faults = { ? };
    ghost is_given = { ? };

    fn disk(&mut self, alloc: Global, _: Option<&str>, _: NodeId) -> Result<MemDisk, YardFault> {
        Ok(MemDisk::new(alloc))
    }

    fn crash(
        &mut self,
        alloc: Global,
        mut disk: MemDisk,
        image: &Image,
    ) -> Result<MemDisk, YardFault> {
        match disk.names(alloc) {
            Ok(names) => {
                self.logs = names
                    .iter()
                    .filter(|name| name.kind == FileKind::Log)
                    .count();
            }
            Err(_) => return Err(YardFault::Failed),
        }
        Ok(disk.crash(alloc, image)?)
    }
}

/// The carries of 1,024 queues are longer than the 65,536 bytes that make a file full. Each of 100 publishes is
/// synced before the next line; so is the election of all queues, which fills a file.
fn a_log_of_many_queues_doesnt_roll_at_each_sync(rt: HostRuntime) -> Result<()> {
    let alloc = rt.alloc();
    let mut script = String::new(alloc);
    for _ in 0..100 {
        script.push_str("publish a\n")?;
    }
    script.push_str("crash 1 whole\n")?;
    let mut yard = CountingYard { logs: 0 };
    let options = ["--queues=1024", "--log-bytes=65536"];
    let ran = serve(rt, &options, &mut yard, &script, 0, 0)?;
    ensure!(ran.status == 0, "status {}", ran.status);
    ensure!(yard.logs == 2, "{} log files", yard.logs);
    Ok(())
}

pub fn check(trials: &mut Trials) -> Result<()> {
    run_each!(trials; a_log_of_many_queues_doesnt_roll_at_each_sync);
    Ok(())
}
