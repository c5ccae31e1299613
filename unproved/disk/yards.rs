//! A yard in memory, and one of folders.

use crate::calls::SCRATCH;
use crate::watched::Watched;
use anyhow::Result;
use qq_base::NodeId;
use qq_dir_disk::DirDisk;
use qq_disk::{EitherDisk, Image};
use qq_mem_disk::MemDisk;
use qq_ports::{FolderYard, MemYard, Yard, YardFault};
use std::mem;

/// A disk of a yard of folders.
pub type FolderDisk<'a> = EitherDisk<MemDisk, DirDisk<Watched<'a>>>;

#[derive(Drop)]
pub struct Yards<'a> {
    system: Watched<'a>,
    /// The disks of the next yard in memory.
    held: Vec<(String, NodeId, MemDisk)>,
    memory: MemYard,
    folders: FolderYard<Watched<'a>>,
}

impl<'a> Yards<'a> {
    /// A yard that holds no disk, and one of folders.
    pub fn new(system: Watched<'a>) -> Self {
        let alloc = system.rt.alloc();
        Yards {
            system,
            held: Vec::new(alloc),
            memory: MemYard::new(Vec::new(alloc), Vec::new(alloc)),
            folders: FolderYard::new(system, alloc),
        }
    }

    /// Puts a disk aside for the next yard in memory, under a root and a node.
    pub fn hold(&mut self, root: &str, node: NodeId, disk: MemDisk) -> Result<()> {
        let root = String::from_str(self.system.rt.alloc(), root)?;
        self.held.push((root, node, disk))?;
        Ok(())
    }

    /// A yard in memory of the disks that were put aside, whose calls of these numbers fail.
    pub fn make(&mut self, fails: Vec<u64>) {
        let held = mem::replace(&mut self.held, Vec::new(self.system.rt.alloc()));
        self.memory = MemYard::new(held, fails);
    }

    /// The disks of a node under a root, which may be missing. The folders' roots lie in the folder of this
    /// run.
    pub fn open(
        &mut self,
        node: NodeId,
        root: &str,
    ) -> Result<
        (
            Result<MemDisk, YardFault>,
            Result<FolderDisk<'a>, YardFault>,
        ),
    > {
        let alloc = self.system.rt.alloc();
        if root.is_empty() {
            return Ok((
                self.memory.disk(alloc, None, node),
                self.folders.disk(alloc, None, node),
            ));
        }
        let path = format!(in alloc; "{SCRATCH}/{root}")?;
        Ok((
            self.memory.disk(alloc, Some(root), node),
            self.folders.disk(alloc, Some(path.as_str()), node),
        ))
    }

    pub fn crash_memory(&mut self, disk: MemDisk, image: &Image) -> Result<MemDisk, YardFault> {
        self.memory.crash(self.system.rt.alloc(), disk, image)
    }

    pub fn crash_folder(
        &mut self,
        disk: FolderDisk<'a>,
        image: &Image,
    ) -> Result<FolderDisk<'a>, YardFault> {
        self.folders.crash(self.system.rt.alloc(), disk, image)
    }
}
