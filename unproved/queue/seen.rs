use crate::pair::Made;
use anyhow::Result;
use qq_entry::{Answer, Cause, Effect, Full};
use std::alloc::Global;
use std::collections::BTreeSet;

/// The kinds of answers and effects that were seen.
#[derive(Drop)]
pub struct Seen {
    /// Of 25 kinds.
    pub answers: BTreeSet<&'static str>,
    /// Of 3 kinds.
    pub effects: BTreeSet<&'static str>,
}

impl Seen {
    pub fn new(alloc: Global) -> Self {
        Seen {
            answers: BTreeSet::new(alloc),
            effects: BTreeSet::new(alloc),
        }
    }

    /// Adds what an entry gave.
    pub fn add(&mut self, made: &Made) -> Result<()> {
        self.answers.insert(answer_kind(&made.answer))?;
        for effect in &made.effects {
            self.effects.insert(effect_kind(effect))?;
        }
        Ok(())
    }
}

fn answer_kind(answer: &Answer) -> &'static str {
    match answer {
        Answer::Lead => "lead",
        Answer::Confirmed => "confirmed",
        Answer::Rejected(Full::Length) => "rejected: length",
        Answer::Rejected(Full::ByteLength) => "rejected: byte length",
        Answer::Rejected(Full::Live) => "rejected: live",
        Answer::Got(_) => "got",
        Answer::Empty => "empty",
        Answer::Subscribed => "subscribed",
        Answer::Refused(Cause::SingleActive) => "refused: single active",
        Answer::Refused(Cause::NumberSpent) => "refused: number spent",
        Answer::Refused(Cause::ConsumersFull) => "refused: consumers full",
        Answer::Refused(Cause::NoConsumer) => "refused: no consumer",
        Answer::Refused(Cause::WrongMode) => "refused: wrong mode",
        Answer::Done => "done",
        Answer::Credited { .. } => "credited",
        Answer::Purged { .. } => "purged",
        Answer::Down => "down",
        Answer::Attached => "attached",
        Answer::Stale => "stale",
        Answer::DeadSettled { .. } => "dead settled",
        Answer::Gap { .. } => "gap",
        Answer::Forgotten => "forgotten",
        Answer::Ended => "ended",
        Answer::WindowFull => "window full",
        Answer::SessionsFull => "sessions full",
    }
}

fn effect_kind(effect: &Effect) -> &'static str {
    match effect {
        Effect::Deliver(..) => "deliver",
        Effect::DeadOnce { .. } => "dead once",
        Effect::Offer { .. } => "offer",
    }
}
