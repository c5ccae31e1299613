use anyhow::{Result, ensure};
use std::fmt::Debug;

/// An error where what came isn't what is wanted.
pub fn same<T: PartialEq + Debug + Drop>(came: T, wanted: T) -> Result<()> {
    ensure!(came == wanted, "{came:?} came, and not {wanted:?}");
    Ok(())
}
