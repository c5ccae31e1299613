//! A yard in which one node's disk stops or fails.

use qq_base::{Memory, NodeId, QueueId};
use qq_disk::Image;
use qq_log::Lane;
use qq_mem_disk::MemDisk;
use qq_ports::{Yard, YardFault};
use qq_recover::inspect;
use std::alloc::Global;

/// How a disk is stopped.
#[derive(Clone, Copy)]
pub enum Stop {
    /// It goes on.
    Never,
    /// All calls after this many fail.
    After(u64),
    /// After this many calls one fails.
    Once(u64),
}

/// A yard of a disk for each node. All nodes are crashed together, in order.
#[derive(Drop)]
pub struct StoppingYard {
    nodes: usize,
    /// The node whose disks are stopped, from 0.
    stopping: usize,
    /// How its first disk is stopped, and how the one that its first crash leaves.
    stops: [Stop; 2],
    crashes: usize,
    /// Calls of its disk after this many may fail.
    passing: u64,
    /// Whether a call of a disk that was crashed had failed.
    failed: bool,
    /// The lanes on each node's disk before its last crash, and after it.
    before: Vec<Vec<Lane>>,
    lanes: Vec<Vec<Lane>>,
}

/// The lanes of queues 1 and 2, where they can be read.
fn lanes_on(alloc: Global, disk: &mut MemDisk) -> Vec<Lane> {
    let lanes = inspect(disk, alloc, &[QueueId(1), QueueId(2)]);
    lanes.unwrap_or(Vec::new(alloc))
}

/// No lanes, of each node.
fn no_lanes(alloc: Global, nodes: usize) -> Result<Vec<Vec<Lane>>, YardFault> {
    let mut lanes = Vec::new(alloc);
    for _ in 0..nodes {
        if let Err(_) = lanes.push(Vec::new(alloc)) {
            return Err(YardFault::Memory(Memory::Want));
        }
    }
    Ok(lanes)
}

impl StoppingYard {
    /// Disks for so many nodes, of which those of one, numbered from 1, are stopped.
    pub fn new(
        alloc: Global,
        nodes: usize,
        stopping: usize,
        stops: [Stop; 2],
    ) -> Result<Self, YardFault> {
        Ok(StoppingYard {
            nodes,
            stopping: stopping - 1,
            stops,
            crashes: 0,
            passing: u64::MAX,
            failed: false,
            before: no_lanes(alloc, nodes)?,
            lanes: no_lanes(alloc, nodes)?,
        })
    }

    /// Whether a call of a disk that was crashed had failed.
    pub fn has_failed(&self) -> bool {
        self.failed
    }

    /// The lanes on each node's disk before its last crash.
    pub fn lanes_before(&self) -> &[Vec<Lane>] {
        &self.before
    }

    /// The lanes on each node's disk after its last crash.
    pub fn lanes(&self) -> &[Vec<Lane>] {
        &self.lanes
    }

    /// Sets how a node's disk is stopped after so many crashes.
    fn stop(
        &mut self,
        alloc: Global,
        node: usize,
        crashes: usize,
        mut disk: MemDisk,
    ) -> Result<MemDisk, YardFault> {
        if node != self.stopping {
            return Ok(disk);
        }
        let stop = self.stops.get(crashes).copied();
        self.passing = u64::MAX;
        match stop.unwrap_or(Stop::Never) {
            Stop::Never => {}
            Stop::After(calls) => {
                self.passing = disk.calls() + calls;
                disk.fuse(calls);
            }
            Stop::Once(calls) => {
                self.passing = disk.calls() + calls;
                disk.fail_calls(Vec::from_slice(alloc, &[self.passing + 1])?);
            }
        }
        Ok(disk)
    }
}

impl Yard for StoppingYard {
    type Disk = MemDisk;

    ghost faults = { ? };
    ghost is_given = { ? };

    fn disk(&mut self, alloc: Global, _: Option<&str>, node: NodeId) -> Result<MemDisk, YardFault> {
        self.stop(alloc, node.0 as usize - 1, 0, MemDisk::new(alloc))
    }

    fn crash(
        &mut self,
        alloc: Global,
        mut disk: MemDisk,
        image: &Image,
    ) -> Result<MemDisk, YardFault> {
        let node = self.crashes % self.nodes;
        self.failed = self.failed || (node == self.stopping && disk.calls() > self.passing);
        self.before[node] = lanes_on(alloc, &mut disk);
        let mut after = disk.crash(alloc, image)?;
        self.lanes[node] = lanes_on(alloc, &mut after);
        self.crashes += 1;
        self.stop(alloc, node, (self.crashes + self.nodes - 1) / self.nodes, after)
    }
}
