//! A check of routes.

use anyhow::{Result, ensure};
use cases::{Trials, run_each};
use qq_base::{QueueId, Text};
use qq_route::{ExchangeKind, Routes};

/// A queue has two bindings that fit one message, which comes to it once, and nowhere else.
fn a_message_comes_to_each_queue_once(rt: HostRuntime) -> Result<()> {
    let alloc = rt.alloc();
    let text = |text: &str| Text::from_str(alloc, text);
    let mut routes = Routes::new(alloc)?;
    routes.add_queue(alloc, &text("orders")?, QueueId(2))?;
    ensure!(routes.bind(alloc, &text("amq.topic")?, QueueId(2), &text("a.#")?)?);
    ensure!(routes.bind(alloc, &text("amq.topic")?, QueueId(2), &text("a.b")?)?);
    ensure!(routes.add_exchange(alloc, &text("a.b")?, ExchangeKind::Fanout)?);
    ensure!(routes.kind(&text("a.b")?) == Some(ExchangeKind::Fanout));
    let queues = routes.targets(alloc, &text("amq.topic")?, &text("a.b")?)?;
    ensure!(queues.as_slice() == [QueueId(2)].as_slice());
    let queues = routes.targets(alloc, &text("")?, &text("orders")?)?;
    ensure!(queues.as_slice() == [QueueId(2)].as_slice());
    Ok(())
}

pub fn check(trials: &mut Trials) -> Result<()> {
    run_each!(trials; a_message_comes_to_each_queue_once);
    Ok(())
}
