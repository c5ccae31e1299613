//! The system's files, with each call printed and one made to fail.

use qq_dir_disk::DiskFile;
use std::alloc::{Allocator, Global};
use std::fs::{File, Metadata, OpenFile, OpenOptions};
use std::io;
use std::io::{ErrorKind, Read, Seek, SeekFrom, Write};
use std::rt::Files;
use std::sync::atomic::{AtomicBool, AtomicU64, Ordering};

// So many calls pass where none is to fail.
const NONE_FAILS: u64 = u64::MAX;

/// What is done at each call. The disks of a yard may go to other threads, so it may be shared by threads.
#[derive(Drop)]
pub struct Watch {
    /// Whether calls are printed.
    prints: AtomicBool,
    /// How many calls pass before one fails.
    passes: AtomicU64,
}

impl Watch {
    pub fn new() -> Self {
        Watch {
            prints: AtomicBool::new(false),
            passes: AtomicU64::new(NONE_FAILS),
        }
    }

    /// Nothing is printed, and nothing fails.
    pub fn reset(&self) {
        self.prints.store(false, Ordering::SeqCst);
        self.passes.store(NONE_FAILS, Ordering::SeqCst);
    }

    /// From here on calls are printed.
    pub fn print(&self) {
        self.prints.store(true, Ordering::SeqCst);
    }

    /// So many calls more pass, and then one fails.
    pub fn fail_after(&self, passes: u64) {
        self.passes.store(passes, Ordering::SeqCst);
    }

    // A call is about to be made: it is printed, and fails where it is to.
    fn call(&self, rt: HostRuntime, call: &str, subject: &str) -> io::Result<()> {
        if self.prints.load(Ordering::SeqCst) {
            println!(rt; "  | {call} {subject}")?;
        }
        match self.passes.load(Ordering::SeqCst) {
            NONE_FAILS => Ok(()),
            0 => {
                self.fail_after(NONE_FAILS);
                Err(io::Error::from(ErrorKind::Other))
            }
            count => {
                self.fail_after(count - 1);
                Ok(())
            }
        }
    }
}

/// The system's files under a watch.
#[derive(Clone, Copy)]
pub struct Watched<'a> {
    pub rt: HostRuntime,
    pub watch: &'a Watch,
}

/// An open file under a watch, with its path.
#[derive(Drop)]
pub struct WatchedFile<'a> {
    system: Watched<'a>,
    path: String,
    file: File,
}

impl<'a> Watched<'a> {
    fn call(&self, call: &str, subject: &str) -> io::Result<()> {
        self.watch.call(self.rt, call, subject)
    }
}

impl<'a> Alloc for Watched<'a> {
    type A = Global;

    fn alloc(&self) -> Global {
        self.rt.alloc()
    }
}

fn open_word(how: &OpenOptions) -> &'static str {
    if how.asks_create_new() {
        return "make";
    }
    if how.asks_append() {
        return "open to append";
    }
    "open"
}

impl<'a> Files for Watched<'a> {
    type File = WatchedFile<'a>;

    type Dir = <HostRuntime as Files>::Dir;

    fn open_file(&self, how: &OpenOptions, path: &str) -> io::Result<WatchedFile<'a>> {
        self.call(open_word(how), path)?;
        Ok(WatchedFile {
            system: *self,
            path: String::from_str(self.rt.alloc(), path)?,
            file: self.rt.open_file(how, path)?,
        })
    }

    fn open_dir(&self, path: &str) -> io::Result<<HostRuntime as Files>::Dir> {
        self.call("list", path)?;
        self.rt.open_dir(path)
    }

    fn metadata(&self, path: &str) -> io::Result<Metadata> {
        self.call("look for", path)?;
        self.rt.metadata(path)
    }

    fn symlink_metadata(&self, path: &str) -> io::Result<Metadata> {
        self.call("look at", path)?;
        self.rt.symlink_metadata(path)
    }

    fn copy(&self, from: &str, to: &str) -> io::Result<u64> {
        self.call("copy", from)?;
        self.rt.copy(from, to)
    }

    fn rename(&self, from: &str, to: &str) -> io::Result<()> {
        self.call("rename", from)?;
        self.rt.rename(from, to)
    }

    fn remove_file(&self, path: &str) -> io::Result<()> {
        self.call("remove", path)?;
        self.rt.remove_file(path)
    }

    fn create_dir(&self, path: &str) -> io::Result<()> {
        self.call("make folder", path)?;
        self.rt.create_dir(path)
    }

    fn remove_dir(&self, path: &str) -> io::Result<()> {
        self.call("remove folder", path)?;
        self.rt.remove_dir(path)
    }

    fn remove_dir_all<B: Allocator>(&self, alloc: B, path: &str) -> io::Result<()> {
        self.call("remove all of", path)?;
        self.rt.remove_dir_all(alloc, path)
    }
}

impl<'a> WatchedFile<'a> {
    fn call(&self, call: &str) -> io::Result<()> {
        self.system.call(call, self.path.as_str())
    }
}

impl<'a> Read for WatchedFile<'a> {
    fn read(&mut self, buf: &mut [u8]) -> io::Result<usize> {
        self.call("read")?;
        self.file.read(buf)
    }
}

impl<'a> Write for WatchedFile<'a> {
    fn write(&mut self, buf: &[u8]) -> io::Result<usize> {
        self.call("write")?;
        let (front, _) = buf.split_at(buf.len().min(8));
        self.file.write(front)
    }

    fn flush(&mut self) -> io::Result<()> {
        self.file.flush()
    }
}

impl<'a> Seek for WatchedFile<'a> {
    fn seek(&mut self, to: SeekFrom) -> io::Result<u64> {
        self.call("seek in")?;
        self.file.seek(to)
    }
}

impl<'a> OpenFile for WatchedFile<'a> {
    fn metadata(&self) -> io::Result<Metadata> {
        self.call("size of")?;
        self.file.metadata()
    }

    fn set_len(&self, size: u64) -> io::Result<()> {
        self.call("cut")?;
        self.file.set_len(size)
    }

    fn sync_all(&self) -> io::Result<()> {
        self.call("sync all of")?;
        self.file.sync_all()
    }

    fn sync_data(&self) -> io::Result<()> {
        self.call("sync bytes of")?;
        self.file.sync_data()
    }
}

impl<'a> DiskFile for WatchedFile<'a> {
    ghost is_synced = { ? };

    ghost is_locked = { ? };

    fn sync_bytes(&self) -> io::Result<()> {
        self.sync_data()
    }

    fn sync_whole(&self) -> io::Result<()> {
        self.sync_all()
    }

    fn lock_file(&self) -> io::Result<bool> {
        self.call("lock")?;
        self.file.lock_file()
    }
}
