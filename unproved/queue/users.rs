//! What the users of a queue know of it.
use crate::draw::Draw;
use crate::pair::Made;
use anyhow::Result;
use cases::Random;
use qq_base::{ConsumerId, SessionId, WORKER};
use qq_entry::{Answer, Command, Effect, Stamp};
use std::alloc::Global;

/// A session as its client knows it.
#[derive(Clone, Copy, Debug)]
pub struct Client {
    pub session: SessionId,
    /// The number of its next command.
    pub next: u64,
    /// The greatest tag that it used.
    pub tag: u32,
    pub ended: bool,
}

/// A delivery that a consumer was given and hasn't named since.
#[derive(Clone, Copy, Debug)]
pub struct Held {
    pub consumer: ConsumerId,
    pub id: u64,
}

/// The users of a queue: clients, their consumers, and a dead-letter worker.
#[derive(Debug, Drop)]
pub struct Users {
    /// Some have ended.
    clients: Vec<Client>,
    /// Those that weren't cancelled.
    pub consumers: Vec<ConsumerId>,
    pub held: Vec<Held>,
    /// The numbers of the dead letters that were offered.
    pub offers: Vec<u64>,
    /// The term of the worker attached, 0 for none.
    pub worker: u64,
}

impl Client {
    /// The client of a session that was never seen.
    fn new(session: SessionId) -> Self {
        Client {
            session,
            next: 1,
            tag: 0,
            ended: false,
        }
    }

    /// A stamp: mostly of the next number, else of one before or behind it.
    pub fn draw_stamp(&self, random: &mut Random) -> Stamp {
        let seq = match random.below(16) {
            0 => self.next.saturating_sub(random.below(12)),
            1 => self.next + random.below(3),
            _ => self.next,
        };
        Stamp {
            session: self.session,
            seq: seq.max(1),
            done: self.next.saturating_sub(random.below(8) + 1),
        }
    }
}

impl Users {
    /// Three clients, and the worker of queue 2's dead letters.
    pub fn new(alloc: Global) -> Result<Self> {
        let worker = SessionId {
            class: WORKER,
            owner: 2,
            number: 1,
        };
        Ok(Users {
            clients: vec![in alloc;
                Client::new(SessionId::client(1)),
                Client::new(SessionId::client(2)),
                Client::new(SessionId::client(3)),
                Client::new(worker),
            ]?,
            consumers: Vec::new(alloc),
            held: Vec::new(alloc),
            offers: Vec::new(alloc),
            worker: 0,
        })
    }

    /// A client. One that has ended is mostly followed by one of another session.
    pub fn draw_client(&mut self, random: &mut Random) -> Client {
        let place = random.below(self.clients.len() as u64) as usize;
        let client = &mut self.clients[place];
        if client.ended && !random.once_in(4) {
            client.session.number += 10;
            *client = Client::new(client.session);
        }
        *client
    }

    /// A stamp of a session that gives commands, or of any where this one isn't known.
    pub fn draw_stamp_of(&mut self, random: &mut Random, session: SessionId) -> Stamp {
        let known = self.clients.iter().find(|client| client.session == session);
        match known.copied() {
            Some(client) => client.draw_stamp(random),
            None => self.draw_client(random).draw_stamp(random),
        }
    }

    /// Learns from what a command came to.
    pub fn learn(&mut self, command: &Command, made: &Made) -> Result<()> {
        if made.fresh {
            self.count_command(command);
            self.learn_fresh(command, &made.answer)?;
        }
        for effect in &made.effects {
            match effect {
                Effect::Deliver(consumer, delivery) => self.held.push(Held {
                    consumer: *consumer,
                    id: delivery.id,
                })?,
                Effect::Offer { number, .. } => self.offers.push(*number)?,
                Effect::DeadOnce { .. } => {}
            }
        }
        Ok(())
    }

    // A session has given a command that was carried out.
    fn count_command(&mut self, command: &Command) {
        for client in &mut self.clients {
            if command.session() == Some(client.session) {
                client.next += 1;
                match command {
                    Command::Down { .. } => client.ended = true,
                    Command::Subscribe { tag, .. } => client.tag = client.tag.max(*tag),
                    _ => {}
                }
            }
        }
    }

    fn learn_fresh(&mut self, command: &Command, answer: &Answer) -> Result<()> {
        match (command, answer) {
            (Command::Subscribe { stamp, tag, .. }, Answer::Subscribed) => {
                self.consumers.push(stamp.consumer_id(*tag))?;
            }
            (Command::Cancel { stamp, tag }, _) => {
                let gone = stamp.consumer_id(*tag);
                self.consumers.retain(|consumer| *consumer != gone);
            }
            (Command::Settle { stamp, tag, ids }, _)
            | (Command::Return { stamp, tag, ids }, _)
            | (Command::Discard { stamp, tag, ids }, _) => {
                let consumer = stamp.consumer_id(*tag);
                self.held.retain(|one| one.consumer != consumer
                    || !ids.as_slice().contains(&one.id));
            }
            (Command::Down { session }, _) => {
                self.consumers
                    .retain(|consumer| consumer.session != *session);
                self.held.retain(|one| one.consumer.session != *session);
            }
            (Command::DeadAttach { term }, Answer::Attached) => self.worker = term.0,
            _ => {}
        }
        Ok(())
    }
}
