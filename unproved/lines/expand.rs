use anyhow::{Context, Result, ensure};
use std::alloc::Global;
use std::collections::BTreeMap;
use std::mem;

/// Texts that have names, for lines with parts in angle brackets.
#[derive(Drop)]
pub struct Names {
    texts: BTreeMap<String, String>,
}

impl Names {
    pub fn new(alloc: Global) -> Self {
        Names {
            texts: BTreeMap::new(alloc),
        }
    }

    pub fn put(&mut self, alloc: Global, name: &str, text: &str) -> Result<()> {
        self.texts.insert(
            String::from_str(alloc, name)?,
            String::from_str(alloc, text)?,
        )?;
        Ok(())
    }

    /// The line, with each part in angle brackets replaced, the inner ones first: `<NAME>` by the text of that
    /// name, and `<COUNT TEXT>` by COUNT copies of a text, in each of which `%` is the copy's number, from 1.
    pub fn expand(&self, alloc: Global, line: &str) -> Result<String> {
        let mut around = Vec::new(alloc);
        let mut text = String::new(alloc);
        for c in line.chars() {
            match c {
                '<' => around.push(mem::replace(&mut text, String::new(alloc)))?,
                '>' => {
                    let outer = around.pop().context("nothing was opened")?;
                    let inner = mem::replace(&mut text, outer);
                    self.add_meaning(alloc, &mut text, inner.as_str())?;
                }
                _ => text.push(c)?,
            }
        }
        ensure!(around.is_empty(), "a bracket is open");
        Ok(text)
    }

    fn add_meaning(&self, alloc: Global, text: &mut String, inner: &str) -> Result<()> {
        let Some((count, part)) = inner.split_once(' ') else {
            text.push_str(self.texts.get(inner).context("no such name")?.as_str())?;
            return Ok(());
        };
        let count: u32 = count.parse().context("a count is wanted")?;
        for number in 1..=count {
            let number = format!(in alloc; "{number}")?;
            text.push_str(part.replace(alloc, '%', number.as_str())?.as_str())?;
        }
        Ok(())
    }
}
