//! Cases of shelves: a file is fetched from a shelf in memory and from one in a folder, and where the latter
//! answers otherwise, that is printed too. The lines are
//!
//! - `empty`: no files;
//! - `file NAME TEXT`, `long NAME LENGTH`: a file of the next shelves, with this text or LENGTH dots;
//! - `folder NAME`: a folder in a file's place, for the shelf in a folder alone;
//! - `shelf CALLS..`: shelves of these files; in memory the calls with these numbers fail, counted from 1;
//! - `fetch NAME`: the file's text; `length NAME`: its length.

use anyhow::{Result, bail};
use cases::{Words, answer_lines};
use qq_ports::{FolderShelf, MemShelf, Shelf, ShelfFault};
use std::alloc::Global;
use std::{fs, mem};

/// The folder of all that a run writes, which is removed again.
const SCRATCH: &str = "qq-shelves-scratch";

/// A shelf in memory and one in a folder, with the same files.
#[derive(Drop)]
struct Shelves {
    rt: HostRuntime,
    /// The files of the next shelf in memory.
    files: Vec<(String, Vec<u8>)>,
    memory: MemShelf,
    folder: FolderShelf<HostRuntime>,
}

fn clean(rt: HostRuntime) -> Result<()> {
    if fs::exists(&rt, SCRATCH)? {
        fs::remove_dir_all(&rt, SCRATCH)?;
    }
    Ok(())
}

/// A file's text, or its length.
fn fetch<S: Shelf>(alloc: Global, shelf: &mut S, name: &str, in_full: bool) -> Result<String> {
    Ok(match shelf.fetch(alloc, name) {
        Ok(bytes) if in_full => format!(in alloc; "`{}`", str::from_utf8(&bytes)?)?,
        Ok(bytes) => format!(in alloc; "{}", bytes.len())?,
        Err(ShelfFault::Failed) => String::from_str(alloc, "failed")?,
        Err(ShelfFault::Memory(_)) => String::from_str(alloc, "memory")?,
    })
}

impl Shelves {
    /// Shelves with no files.
    fn new(rt: HostRuntime) -> Result<Self> {
        clean(rt)?;
        fs::create_dir(&rt, SCRATCH)?;
        let alloc = rt.alloc();
        Ok(Shelves {
            rt,
            files: Vec::new(alloc),
            memory: MemShelf::new(Vec::new(alloc), Vec::new(alloc)),
            folder: FolderShelf::new(rt, String::from_str(alloc, SCRATCH)?),
        })
    }

    /// Carries out a line, and returns its answer.
    fn line(&mut self, line: &str) -> Result<String> {
        let alloc = self.rt.alloc();
        let words = &mut Words::new(line);
        match words.next() {
            "empty" => *self = Shelves::new(self.rt)?,
            "file" => self.add(words.next(), words.rest().as_bytes())?,
            "long" => self.add(words.next(), &vec![in alloc; b'.'; words.number()?]?)?,
            "folder" => fs::create_dir_all(&self.rt, self.path_of(words.rest())?)?,
            "shelf" => {
                let files = mem::replace(&mut self.files, Vec::new(alloc));
                self.memory = MemShelf::new(files, words.numbers(alloc)?);
                self.folder = FolderShelf::new(self.rt, String::from_str(alloc, SCRATCH)?);
            }
            "fetch" => return self.fetch(words.rest(), true),
            "length" => return self.fetch(words.rest(), false),
            _ => bail!("no such call"),
        }
        Ok(String::new(alloc))
    }

    fn path_of(&self, name: &str) -> Result<String> {
        Ok(format!(in self.rt.alloc(); "{SCRATCH}/{name}")?)
    }

    fn add(&mut self, name: &str, bytes: &[u8]) -> Result<()> {
        let alloc = self.rt.alloc();
        fs::write(&self.rt, self.path_of(name)?, bytes)?;
        self.files.push((
            String::from_str(alloc, name)?,
            Vec::from_slice(alloc, bytes)?,
        ))?;
        Ok(())
    }

    /// What both shelves have; of the folder where it is another.
    fn fetch(&mut self, name: &str, in_full: bool) -> Result<String> {
        let alloc = self.rt.alloc();
        let text = fetch(alloc, &mut self.memory, name, in_full)?;
        let other = fetch(alloc, &mut self.folder, name, in_full)?;
        if other == text {
            return Ok(text);
        }
        Ok(format!(in alloc; "{text}\nin the folder: {other}")?)
    }
}

pub fn run(rt: HostRuntime) -> Result<()> {
    let mut shelves = Shelves::new(rt)?;
    answer_lines(rt, |line| shelves.line(line))?;
    clean(rt)
}
