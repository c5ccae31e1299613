//! A script for two queues is stopped at each call of a node's disk, and each call fails once: over one node, and for
//! each of three.
//!
//! A run is stopped on the node's first disk, before the first crash, or on the second one, within the restart and after
//! it. In each run, each message that was confirmed has to come by a `get` after the last restart, and has to be,
//! with its body, in the lanes that recovery reads from the disks of a majority.

use crate::runs::{Ran, serve};
use crate::script::{body_front, script, was_confirmed, was_got};
use crate::yard::{Stop, StoppingYard};
use anyhow::{Result, bail, ensure};
use cases::{Trials, run_each};
use qq_entry::Command;
use qq_log::Lane;
use std::alloc::Global;

const ONE_NODE: [&str; 2] = ["--queues=2", "--log-bytes=65536"];
const THREE_NODES: [&str; 3] = ["--nodes=3", "--queues=2", "--log-bytes=65536"];

/// More calls than any run makes of a disk.
const MOST_CALLS: u64 = 1_000;

/// At least this many runs are stopped by each disk.
const LEAST_CALLS: u64 = 10;

/// The status of a run whose node found no disk.
const YARD_FAULT: u8 = 7;

/// Whether a command publishes a message whose body begins so.
fn publishes(command: &Command, front: &[u8]) -> bool {
    let Command::Enqueue { message, .. } = command else {
        return false;
    };
    let content = message.content.as_ref();
    content.is_some_and(|content| content.get().body.as_slice().starts_with(front))
}

/// Whether a message whose body begins so stands in the lane of its queue.
fn is_in_lane(lanes: &[Lane], queue: u32, front: &str) -> bool {
    lanes
        .iter()
        .filter(|lane| lane.queue.0 == queue)
        .flat_map(|lane| lane.entries.as_slice())
        .any(|entry| publishes(entry.command.get(), front.as_bytes()))
}

/// Whether it stands there on the disks of a majority of the nodes.
fn is_kept(nodes: &[Vec<Lane>], queue: u32, front: &str) -> bool {
    let holding = nodes
        .iter()
        .filter(|lanes| is_in_lane(lanes, queue, front))
        .count();
    holding > nodes.len() / 2
}

/// Checks what was confirmed: all messages, in a run that wasn't stopped. Returns whether it was.
fn check_run(alloc: Global, ran: &Ran, yard: &StoppingYard) -> Result<bool> {
    let printed = ran.printed()?;
    if ran.status == YARD_FAULT {
        ensure!(
            printed == "yard fault\n",
            "a node without a disk has printed something"
        );
        return Ok(true);
    }
    ensure!(ran.status == 0, "a run isn't served to its end");
    for (queue, number) in [(1, 1), (1, 2), (1, 3), (2, 1), (2, 2), (2, 3)] {
        if was_confirmed(alloc, printed, queue, number)? {
            let is_got = was_got(alloc, printed, queue, number)?;
            ensure!(is_got, "a confirmed message is lost");
            let front = body_front(alloc, queue, number)?;
            let is_kept = is_kept(yard.lanes(), queue, front.as_str());
            ensure!(is_kept, "a majority of the disks lacks a confirmed message");
        } else {
            ensure!(yard.has_failed(), "a message isn't confirmed");
        }
    }
    Ok(yard.has_failed())
}

/// Stops runs after more and more calls of a node's disk, until a run is no longer stopped.
fn stop_each<F: Fn(u64) -> [Stop; 2]>(
    rt: HostRuntime,
    options: &[&str],
    nodes: usize,
    stopping: usize,
    image: &str,
    stops: F,
) -> Result<()> {
    let script = script(rt.alloc(), nodes, image)?;
    for calls in 0..MOST_CALLS {
        let mut yard = StoppingYard::new(rt.alloc(), nodes, stopping, stops(calls))?;
        let ran = serve(rt, options, &mut yard, script.as_str(), 0, 0)?;
        if !check_run(rt.alloc(), &ran, &yard)? {
            ensure!(calls >= LEAST_CALLS, "too few runs were stopped");
            return Ok(());
        }
    }
    bail!("a run makes too many calls of its disk")
}

/// Stops runs on each of the two disks of a node, from a call on and at one call, where crashes leave this image.
fn stop_both(
    rt: HostRuntime,
    options: &[&str],
    nodes: usize,
    stopping: usize,
    image: &str,
) -> Result<()> {
    stop_each(rt, options, nodes, stopping, image, |calls| [Stop::After(calls), Stop::Never])?;
    stop_each(rt, options, nodes, stopping, image, |calls| [Stop::Once(calls), Stop::Never])?;
    stop_each(rt, options, nodes, stopping, image, |calls| [Stop::Never, Stop::After(calls)])?;
    stop_each(rt, options, nodes, stopping, image, |calls| [Stop::Never, Stop::Once(calls)])
}

fn confirmed_messages_survive_crashes_that_leave_nothing(rt: HostRuntime) -> Result<()> {
    stop_both(rt, &ONE_NODE, 1, 1, "none")
}

fn confirmed_messages_survive_crashes_that_leave_all(rt: HostRuntime) -> Result<()> {
    stop_both(rt, &ONE_NODE, 1, 1, "whole")
}

fn confirmed_messages_survive_crashes_that_leave_20_bytes(rt: HostRuntime) -> Result<()> {
    stop_both(rt, &ONE_NODE, 1, 1, "cut 20")
}

fn confirmed_messages_survive_where_one_of_three_disks_fails(rt: HostRuntime) -> Result<()> {
    for stopping in 1..=3 {
        stop_both(rt, &THREE_NODES, 3, stopping, "none")?;
    }
    Ok(())
}

/// What is printed where the sync of a message's batch fails: no answer, and no row of it.
const UNSYNCED: &str =
    "node 1 stopped\nno leader q1\naudit q1 0 1\n1 1 noop 1 lead\naudit q2 0 1\n1 1 noop 1 lead\n";

/// Of runs in which one call fails there is one whose message was appended and is then lost by the crash.
fn a_message_whose_sync_fails_is_not_answered(rt: HostRuntime) -> Result<()> {
    let mut unsynced = 0;
    for calls in 0..40 {
        let mut yard = StoppingYard::new(rt.alloc(), 1, 1, [Stop::Once(calls), Stop::Never])?;
        let ran = serve(
            rt,
            &ONE_NODE,
            &mut yard,
            "publish a\nget\ncrash 1 none\n",
            0,
            0,
        )?;
        let was_appended = is_kept(yard.lanes_before(), 1, "a");
        let is_lost = was_appended && !is_kept(yard.lanes(), 1, "a");
        if is_lost {
            ensure!(ran.printed()? == UNSYNCED, "{:?}", ran.printed()?);
            unsynced += 1;
        }
    }
    ensure!(unsynced == 1, "{unsynced} runs in place of one");
    Ok(())
}

pub fn check(trials: &mut Trials) -> Result<()> {
    run_each!(
        trials;
        confirmed_messages_survive_crashes_that_leave_nothing,
        confirmed_messages_survive_crashes_that_leave_all,
        confirmed_messages_survive_crashes_that_leave_20_bytes,
        confirmed_messages_survive_where_one_of_three_disks_fails,
        a_message_whose_sync_fails_is_not_answered,
    );
    Ok(())
}
