use crate::draw::Draw;
use crate::users::Users;
use anyhow::Result;
use cases::Random;
use qq_base::{Bytes, ConsumerId, DEAD_LETTER, Ids, QueueId, QueueIds, SessionId, Term, Text};
use qq_entry::{
    Command, Content, DeadDone, DeadDones, Death, Deaths, MACHINE_VERSION, Message, Mode, Origin,
    Reason, Stamp,
};
use std::alloc::Global;

/// A random command of these users.
pub fn draw_command(alloc: Global, random: &mut Random, users: &mut Users) -> Result<Command> {
    match random.below(32) {
        0..11 => draw_enqueue(alloc, random, users),
        11..13 => Ok(Command::Get {
            stamp: users.draw_client(random).draw_stamp(random),
        }),
        13..16 => Ok(draw_subscribe(random, users)),
        16 => {
            let consumer = draw_consumer(random, users);
            Ok(Command::Cancel {
                stamp: users.draw_stamp_of(random, consumer.session),
                tag: consumer.tag,
            })
        }
        17..20 => Ok(draw_credit(random, users)),
        20..28 => draw_finish(alloc, random, users),
        28..30 => draw_dead_settle(alloc, random, users),
        _ => Ok(draw_rare(random, users)),
    }
}

// A publish, or a dead letter of queue 3 that is sent at most once.
fn draw_enqueue(alloc: Global, random: &mut Random, users: &mut Users) -> Result<Command> {
    let mut stamp = users.draw_client(random).draw_stamp(random);
    let mut origin = None;
    if random.once_in(8) {
        let session = SessionId {
            class: DEAD_LETTER,
            owner: 3,
            number: 1,
        };
        stamp = Stamp {
            session,
            seq: 0,
            done: 0,
        };
        origin = Some(Origin {
            source: QueueId(3),
            number: random.below(9) + 1,
        });
    }
    Ok(Command::Enqueue {
        stamp,
        origin,
        message: draw_message(alloc, random)?,
    })
}

// A message of at most five bytes, which may have died before.
fn draw_message(alloc: Global, random: &mut Random) -> Result<Message> {
    let mut deaths = Deaths::new(alloc);
    if random.once_in(4) {
        deaths.push(Death {
            queue: QueueId(2),
            reason: Reason::MaxLen,
        })?;
    }
    let size = random.below(6) as usize;
    let content = Content {
        body: Bytes::from_vec(vec![in alloc; b'x'; size]?),
        key: Text::new(alloc),
        deaths,
    };
    Ok(Message::new(alloc, content)?)
}

// A new consumer, mostly with the next tag.
fn draw_subscribe(random: &mut Random, users: &mut Users) -> Command {
    let client = users.draw_client(random);
    let next = client.tag + 1;
    let tag = match random.below(4) {
        0 => next.saturating_sub(random.below(3) as u32).max(1),
        _ => next,
    };
    Command::Subscribe {
        stamp: client.draw_stamp(random),
        tag,
        mode: match random.once_in(2) {
            true => Mode::Link,
            false => Mode::Prefetch(random.below(4) as u16),
        },
    }
}

// A consumer that is known, or one of a tag that was never used.
fn draw_consumer(random: &mut Random, users: &mut Users) -> ConsumerId {
    let known = random.choose(&users.consumers);
    if !random.once_in(8)
        && let Some(consumer) = known
    {
        return consumer;
    }
    ConsumerId {
        session: users.draw_client(random).session,
        tag: 99,
    }
}

fn draw_credit(random: &mut Random, users: &mut Users) -> Command {
    let consumer = draw_consumer(random, users);
    Command::Credit {
        stamp: users.draw_stamp_of(random, consumer.session),
        tag: consumer.tag,
        count: random.below(12) as u32,
        credit: random.below(8) as u32,
        drain: random.once_in(4),
    }
}

// A settle, return or discard, mostly of a consumer with a delivery.
fn draw_finish(alloc: Global, random: &mut Random, users: &mut Users) -> Result<Command> {
    let consumer = match random.choose(&users.held) {
        Some(held) => held.consumer,
        None => draw_consumer(random, users),
    };
    let stamp = users.draw_stamp_of(random, consumer.session);
    let tag = consumer.tag;
    let ids = draw_ids(alloc, random, users, consumer)?;
    Ok(match random.below(4) {
        0 => Command::Settle { stamp, tag, ids },
        1 => Command::Discard { stamp, tag, ids },
        _ => Command::Return { stamp, tag, ids },
    })
}

// Ids that are mostly out with a consumer, one of them maybe twice.
fn draw_ids(
    alloc: Global,
    random: &mut Random,
    users: &Users,
    consumer: ConsumerId,
) -> Result<Ids> {
    let mut ids = Ids::new(alloc);
    for held in &users.held {
        if held.consumer == consumer && ids.len() < 8 && random.once_in(2) {
            ids.push(held.id)?;
        }
    }
    if random.once_in(4) || ids.is_empty() {
        ids.push(random.below(12) + 1)?;
    }
    Ok(ids)
}

// Dead letters that are settled, seldom by the worker of an earlier term.
fn draw_dead_settle(alloc: Global, random: &mut Random, users: &Users) -> Result<Command> {
    let mut done = DeadDones::new(alloc);
    for _ in 0..random.below(3) + 1 {
        done.push(DeadDone {
            number: draw_offer(random, &users.offers),
            targets: QueueIds::from_vec(vec![in alloc; QueueId(2)]?),
        })?;
    }
    let late = random.once_in(16);
    Ok(Command::DeadSettle {
        term: Term(if late { 0 } else { users.worker }),
        done,
    })
}

// A dead letter that was offered lately, or any.
fn draw_offer(random: &mut Random, offers: &[u64]) -> u64 {
    let back = random.below(8) as usize;
    match offers.iter().rev().nth(back) {
        Some(number) => *number,
        None => random.below(8) + 1,
    }
}

fn draw_rare(random: &mut Random, users: &mut Users) -> Command {
    let client = users.draw_client(random);
    match random.below(8) {
        0 => Command::Noop {
            version: MACHINE_VERSION,
        },
        1 => Command::Purge {
            stamp: client.draw_stamp(random),
        },
        2..4 => Command::Down {
            session: client.session,
        },
        _ => Command::DeadAttach {
            term: Term(users.worker + random.below(2)),
        },
    }
}
