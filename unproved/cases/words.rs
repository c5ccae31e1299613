use anyhow::{Context, Result};
use std::alloc::Global;
use std::num::ParseIntError;
use std::str::FromStr;

/// The words of a line that weren't read yet.
#[derive(Drop)]
pub struct Words<'a> {
    rest: &'a str,
}

fn parse<T: FromStr<Err = ParseIntError>>(word: &str) -> Result<T> {
    word.parse().context("a number is wanted")
}

impl<'a> Words<'a> {
    pub fn new(line: &'a str) -> Self {
        Words { rest: line }
    }

    /// The rest of the line.
    pub fn rest(&self) -> &'a str {
        self.rest
    }

    /// The next word, which is empty at the line's end.
    pub fn next(&mut self) -> &'a str {
        let (word, rest) = self.rest.split_once(' ').unwrap_or((self.rest, ""));
        self.rest = rest;
        word
    }

    pub fn number<T: FromStr<Err = ParseIntError>>(&mut self) -> Result<T> {
        parse(self.next())
    }

    /// The numbers up to the line's end.
    pub fn numbers<T: FromStr<Err = ParseIntError> + Drop>(&self, alloc: Global) -> Result<Vec<T>> {
        self.rest
            .split_whitespace()
            .map(|word| parse(word))
            .try_collect(alloc)
    }
}
