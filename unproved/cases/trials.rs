use anyhow::{Result, bail};

/// Runs checks that have names, and counts those that fail.
#[derive(Drop)]
pub struct Trials {
    rt: HostRuntime,
    count: u32,
    failed: u32,
}

impl Trials {
    pub fn new(rt: HostRuntime) -> Self {
        Trials {
            rt,
            count: 0,
            failed: 0,
        }
    }

    /// Runs a check, and prints its name, and why it failed.
    pub fn run<F>(&mut self, name: &str, check: F) -> Result<()>
    where
        F: FnOnce(HostRuntime) -> Result<()>,
    {
        self.count += 1;
        match check(self.rt) {
            Ok(()) => println!(self.rt; "{name}")?,
            Err(error) => {
                self.failed += 1;
                println!(self.rt; "failed {name}: {error}")?;
            }
        }
        Ok(())
    }

    /// An error if a check has failed.
    pub fn end(self) -> Result<()> {
        match self.failed {
            0 => Ok(()),
            failed => bail!("{failed} of {} checks failed", self.count),
        }
    }
}

/// Runs functions as checks, each under its own name. They take the runtime; or a reference to one, where it is
/// given before the semicolon.
#[macro_export]
macro_rules! run_each {
    ($trials:expr; $($check:ident),+ $(,)?) => {
        $($trials.run(stringify!($check), $check)?;)+
    };
    ($trials:expr, $rt:expr; $($check:ident),+ $(,)?) => {
        $($trials.run(stringify!($check), |_| $check($rt))?;)+
    };
}
