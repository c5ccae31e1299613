//! Cases of a disk's calls: each is made of a disk in memory and of one in a folder, and where the latter
//! answers otherwise, that is printed too.
//!
//! A file is named by its kind, `log`, `segment` or `snapshot`, and a number. The calls are
//!
//! - `disk`: new disks, empty;
//! - `append KIND N TEXT`, `sync KIND N`, `remove KIND N`, `size KIND N`, `read KIND N PLACE LENGTH`, `names`.
//!
//! Of the disk in memory alone, after which the other is put aside until the next `disk`:
//!
//! - `fail N..`: the calls of these numbers fail; `fuse K`: K calls more pass; `calls` says how many were made;
//! - `crash NEWEST OTHERS BACK`: a crash. It says what remains of the pending bytes of the newest log and of
//!   all other files (`whole`, `cut:N`, `junk:TEXT`), and whether removed files are back (`back`, `gone`).
//!
//! Of the disk in the folder alone:
//!
//! - `trace`: from here on each call of the system is printed, a write in pieces of 8 bytes at most;
//! - `break K`: K calls of the system more pass, and then one fails; `reopen`: the folder is opened anew;
//! - `put NAME TEXT` and `folder NAME`: somebody else puts a file or a folder there;
//! - `block`: somebody else puts a file in the folder's place;
//! - `random SEED COUNT`: COUNT random calls of both disks.
//!
//! Of yards, one in memory and one of folders, which give both disks:
//!
//! - `hold ROOT N`: the disk in memory is put aside, for root ROOT and node N;
//! - `yard CALLS..`: a yard in memory of the disks that were put aside, whose calls of these numbers fail;
//! - `open N ROOT`, and `open N` without a root: the yards give the disks of node N;
//! - `yard-crash NEWEST OTHERS BACK`: the yards crash both disks, as by `crash`.

use crate::call::answer;
use crate::files::image;
use crate::random::Calls;
use crate::watched::{Watch, Watched};
use crate::yards::{FolderDisk, Yards};
use anyhow::Result;
use cases::{Words, answer_lines};
use qq_base::NodeId;
use qq_dir_disk::DirDisk;
use qq_disk::EitherDisk;
use qq_mem_disk::MemDisk;
use qq_ports::YardFault;
use std::alloc::Global;
use std::{fs, mem};

/// The folder of all that a run writes, which is removed again.
pub const SCRATCH: &str = "qq-disks-scratch";

/// The folder above that of the disk.
const ROOT: &str = "qq-disks-scratch/root";

/// The folder of the disk.
const FOLDER: &str = "qq-disks-scratch/root/node-1";

/// A disk in memory, and one in a folder as long as both are to answer the same.
#[derive(Drop)]
struct Disks<'a> {
    system: Watched<'a>,
    memory: MemDisk,
    folder: Option<FolderDisk<'a>>,
    yards: Yards<'a>,
}

fn new_folder<'a>(system: Watched<'a>) -> Result<FolderDisk<'a>> {
    let alloc = system.rt.alloc();
    let path = String::from_str(alloc, FOLDER)?;
    Ok(EitherDisk::Second(DirDisk::new(system, alloc, path)))
}

/// Removes all that a run has written.
fn clean(rt: HostRuntime) -> Result<()> {
    if fs::exists(&rt, SCRATCH)? {
        fs::remove_dir_all(&rt, SCRATCH)?;
    }
    Ok(())
}

fn word_of<D>(given: &Result<D, YardFault>) -> &'static str {
    match given {
        Ok(_) => "done",
        Err(YardFault::Failed) => "failed",
        Err(YardFault::Memory(_)) => "memory",
    }
}

impl<'a> Disks<'a> {
    /// Two disks that are empty.
    fn new(rt: HostRuntime, watch: &'a Watch) -> Result<Self> {
        clean(rt)?;
        watch.reset();
        let system = Watched { rt, watch };
        Ok(Disks {
            system,
            memory: MemDisk::new(rt.alloc()),
            folder: Some(new_folder(system)?),
            yards: Yards::new(system),
        })
    }

    fn alloc(&self) -> Global {
        self.system.rt.alloc()
    }

    /// Carries out a line, and returns its answer.
    fn line(&mut self, line: &str) -> Result<String> {
        let words = &mut Words::new(line);
        match words.next() {
            "random" => return self.random(words.number()?, words.number()?),
            "open" => return self.open(words),
            "yard-crash" => return self.yard_crash(words),
            "calls" => return Ok(format!(in self.alloc(); "{}", self.memory.calls())?),
            "disk" => *self = Disks::new(self.system.rt, self.system.watch)?,
            "trace" => self.system.watch.print(),
            "break" => self.system.watch.fail_after(words.number()?),
            "reopen" => self.folder = Some(new_folder(self.system)?),
            "put" => self.put(words.next(), words.next())?,
            "folder" => self.make_folder(words.next())?,
            "block" => self.block()?,
            "yard" => self.yards.make(words.numbers(self.alloc())?),
            "fail" => {
                self.folder = None;
                self.memory.fail_calls(words.numbers(self.alloc())?);
            }
            "fuse" => {
                self.folder = None;
                self.memory.fuse(words.number()?);
            }
            "crash" => {
                self.folder = None;
                let image = image(words, self.alloc())?;
                self.memory = self.take_memory().crash(self.alloc(), &image)?;
            }
            "hold" => {
                self.folder = None;
                let disk = self.take_memory();
                self.yards
                    .hold(words.next(), NodeId(words.number()?), disk)?;
            }
            _ => return self.call(line),
        }
        Ok(String::new(self.alloc()))
    }

    /// Makes a call of both. The answer of the one in memory is printed first, since the one in the folder may
    /// print its calls of the system.
    fn call(&mut self, line: &str) -> Result<String> {
        let alloc = self.alloc();
        let text = answer(alloc, &mut self.memory, line)?;
        if !text.is_empty() {
            println!(self.system.rt; "  {text}")?;
        }
        let Some(folder) = &mut self.folder else {
            return Ok(String::new(alloc));
        };
        let other = answer(alloc, folder, line)?;
        if other == text {
            return Ok(String::new(alloc));
        }
        let shown = if other.is_empty() {
            "nothing"
        } else {
            other.as_str()
        };
        Ok(format!(in alloc; "in the folder: {shown}")?)
    }

    /// Makes random calls of both, up to the first that they answer otherwise.
    fn random(&mut self, seed: u64, count: u64) -> Result<String> {
        let alloc = self.alloc();
        let mut calls = Calls::new(seed);
        for made in 0..count {
            let line = calls.next(alloc)?;
            let text = answer(alloc, &mut self.memory, line.as_str())?;
            let Some(folder) = &mut self.folder else {
                continue;
            };
            let other = answer(alloc, folder, line.as_str())?;
            if other != text {
                return Ok(format!(in alloc;
                    "after {made} calls: {line}: {text}; in the folder: {other}"
                )?);
            }
        }
        Ok(String::from_str(alloc, "the same answers")?)
    }

    fn path_of(&self, name: &str) -> Result<String> {
        Ok(format!(in self.alloc(); "{FOLDER}/{name}")?)
    }

    /// Writes a file into the folder, as somebody else.
    fn put(&self, name: &str, text: &str) -> Result<()> {
        let rt = self.system.rt;
        fs::create_dir_all(&rt, FOLDER)?;
        fs::write(&rt, self.path_of(name)?, text)?;
        Ok(())
    }

    /// Makes a folder in a file's place, as somebody else.
    fn make_folder(&self, name: &str) -> Result<()> {
        fs::create_dir_all(&self.system.rt, self.path_of(name)?)?;
        Ok(())
    }

    /// Puts a file in the folder's place, as somebody else.
    fn block(&self) -> Result<()> {
        let rt = self.system.rt;
        fs::create_dir_all(&rt, ROOT)?;
        fs::write(&rt, FOLDER, "")?;
        Ok(())
    }

    /// The disk in memory, in whose place comes an empty one.
    fn take_memory(&mut self) -> MemDisk {
        mem::replace(&mut self.memory, MemDisk::new(self.system.rt.alloc()))
    }

    /// Has both yards give a disk.
    fn open(&mut self, words: &mut Words) -> Result<String> {
        let (memory, folder) = self.yards.open(NodeId(words.number()?), words.next())?;
        self.take(memory, Some(folder))
    }

    /// Has the yards crash both disks.
    fn yard_crash(&mut self, words: &mut Words) -> Result<String> {
        let image = image(words, self.alloc())?;
        let disk = self.take_memory();
        let memory = self.yards.crash_memory(disk, &image);
        let folder = match self.folder.take() {
            Some(disk) => Some(self.yards.crash_folder(disk, &image)),
            None => None,
        };
        self.take(memory, folder)
    }

    /// Takes the disks that the yards gave, and returns what the yards answered.
    fn take(
        &mut self,
        memory: Result<MemDisk, YardFault>,
        folder: Option<Result<FolderDisk<'a>, YardFault>>,
    ) -> Result<String> {
        let text = word_of(&memory);
        let other = folder.as_ref().map_or(text, |given| word_of(given));
        if let Ok(disk) = memory {
            self.memory = disk;
        }
        self.folder = match folder {
            Some(Ok(disk)) => Some(disk),
            _ => None,
        };
        if other == text {
            return Ok(String::from_str(self.alloc(), text)?);
        }
        Ok(format!(in self.alloc(); "{text}\nin the folder: {other}")?)
    }
}

pub fn run(rt: HostRuntime) -> Result<()> {
    let watch = Watch::new();
    let mut disks = Disks::new(rt, &watch)?;
    answer_lines(rt, |line| disks.line(line))?;
    clean(rt)
}
