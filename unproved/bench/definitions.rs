//! Reads an export of definitions, and asks its routes for targets, with the time that each takes.
//!
//! The exchange `direct` is asked for the keys `k1` to `k1000`, the exchange `topic` for `shop.1.order` to
//! `shop.1000.order`, and the default exchange for the queues `q1` to `q1000`, each a hundred times.
use crate::words::word;
use anyhow::{Context, Result};
use qq_base::Text;
use qq_defs::{Setup, read};
use qq_route::Routes;
use std::alloc::Global;
use std::fs;
use std::time::Instant;

const KEYS: u32 = 1_000;

const ROUNDS: u32 = 100;

fn read_export(rt: HostRuntime, file: &str) -> Result<Setup> {
    let bytes = fs::read(&rt, file)?;
    let start = Instant::now(&rt)?;
    let setup = read(rt.alloc(), &bytes, false, 3, 1 << 20)?;
    let spent = start.elapsed(&rt)?;
    println!(rt; "read: {} us for {} bytes", spent.as_micros(), bytes.len())?;
    Ok(setup)
}

fn keys_of(alloc: Global, before: &str, behind: &str) -> Result<Vec<Text>> {
    let mut keys = Vec::new(alloc);
    for number in 1..=KEYS {
        keys.push(Text::from_string(format!(in alloc; "{before}{number}{behind}")?))?;
    }
    Ok(keys)
}

fn time_targets(rt: HostRuntime, routes: &Routes, exchange: &str, keys: &[Text]) -> Result<()> {
    let name = Text::from_str(rt.alloc(), exchange)?;
    let mut count = 0;
    let start = Instant::now(&rt)?;
    for _ in 0..ROUNDS {
        for key in keys {
            count += routes.targets(rt.alloc(), &name, key)?.as_slice().len();
        }
    }
    let spent = start.elapsed(&rt)?.as_nanos();
    let shown = if exchange.is_empty() {
        "default"
    } else {
        exchange
    };
    let calls = u128::from(KEYS) * u128::from(ROUNDS);
    println!(rt; "{shown}: {} ns a call, {count} targets", spent / calls)?;
    Ok(())
}

pub fn run(rt: HostRuntime, words: &[String]) -> Result<()> {
    let setup = read_export(rt, word(words, 0)?)?;
    let made = setup.made.context("no definitions")?;
    println!(rt; "{} queues, {} bindings", made.queues, made.bindings)?;
    for (exchange, before, behind) in [
        ("", "q", ""),
        ("direct", "k", ""),
        ("topic", "shop.", ".order"),
    ] {
        time_targets(
            rt,
            &setup.routes,
            exchange,
            &keys_of(rt.alloc(), before, behind)?,
        )?;
    }
    Ok(())
}
