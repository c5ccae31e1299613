use anyhow::Result;
use std::io;

/// Reads cases from the input, and prints each line again with its answer below it, indented by two blanks. So
/// a file of cases is its own wanted output.
///
/// A line with that indentation is an answer of an earlier run, and is skipped. A line that is empty or begins
/// with `#` is a comment.
pub fn answer_lines<F>(rt: HostRuntime, mut answer: F) -> Result<()>
where
    F: FnMut(&str) -> Result<String> + Drop,
{
    let cases = io::read_to_string(rt.alloc(), rt.stdin())?;
    for line in cases.lines() {
        if line.starts_with("  ") {
            continue;
        }
        println!(rt; "{line}")?;
        if line.is_empty() || line.starts_with('#') {
            continue;
        }
        for row in answer(line)?.lines() {
            println!(rt; "  {row}")?;
        }
    }
    Ok(())
}
