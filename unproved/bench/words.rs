use anyhow::{Context, Result};

pub fn word(words: &[String], place: usize) -> Result<&str> {
    Ok(words.get(place).context("a word is missing")?.as_str())
}

pub fn number(words: &[String], place: usize) -> Result<u64> {
    word(words, place)?.parse().context("a number is wanted")
}
