//! What an entry gives, as an audit has it.
use crate::pair::Made;
use anyhow::Result;
use qq_base::{SessionId, WORKER};
use qq_entry::{Answer, AuditRow, Delivery, Effect, Entry, Message, Reason};
use qq_script::row_text;
use std::alloc::Global;
use std::fmt::Write;
use std::str;

/// The row of an entry, the message of a get, and the effects in order, each on a line.
pub fn made_text(alloc: Global, entry: Entry, made: Made) -> Result<String> {
    let row = AuditRow {
        index: made.index,
        entry,
        fresh: made.fresh,
        answer: made.answer,
    };
    let mut bytes = Vec::new(alloc);
    row_text(alloc, &row, &mut bytes)?;
    let mut text = String::from_str(alloc, str::from_utf8(&bytes)?)?;
    if let Answer::Got(delivery) = &row.answer {
        text.push_str("message ")?;
        push_delivery(&mut text, delivery)?;
    }
    for effect in &made.effects {
        push_effect(&mut text, effect)?;
    }
    Ok(text)
}

fn push_effect(text: &mut String, effect: &Effect) -> Result<()> {
    match effect {
        Effect::Deliver(consumer, delivery) => {
            text.push_str("deliver ")?;
            push_session(text, consumer.session)?;
            write!(text, " {} {} ", consumer.tag, delivery.id)?;
            push_delivery(text, delivery)
        }
        Effect::DeadOnce { reason, message } => {
            write!(text, "dead {} ", reason_word(*reason))?;
            push_message(text, message)
        }
        Effect::Offer {
            number,
            reason,
            message,
        } => {
            write!(text, "offer {number} {} ", reason_word(*reason))?;
            push_message(text, message)
        }
    }
}

// A message with its arrival, and how often it was returned and counted where that isn't 0.
fn push_delivery(text: &mut String, delivery: &Delivery) -> Result<()> {
    write!(text, "{}", delivery.arrival)?;
    if delivery.count > 0 {
        write!(text, "/{}", delivery.count)?;
    }
    text.push(' ')?;
    push_message(text, &delivery.message)
}

// A message in the words that an enqueue is written in.
fn push_message(text: &mut String, message: &Message) -> Result<()> {
    match &message.content {
        None => write!(text, "of {} bytes", message.size)?,
        Some(content) => {
            let content = content.get();
            text.push_str(str::from_utf8(content.body.as_slice())?)?;
            if content.key.len() > 0 {
                write!(text, " key={}", content.key.as_str())?;
            }
            for death in content.deaths.as_slice() {
                write!(
                    text,
                    " died={},{}",
                    death.queue.0,
                    reason_word(death.reason)
                )?;
            }
        }
    }
    text.push('\n')?;
    Ok(())
}

fn push_session(text: &mut String, session: SessionId) -> Result<()> {
    let SessionId {
        class,
        owner,
        number,
    } = session;
    match class {
        1 => write!(text, "{number}")?,
        WORKER => write!(text, "d{owner}.{number}")?,
        _ => write!(text, "o{owner}.{number}")?,
    }
    Ok(())
}

fn reason_word(reason: Reason) -> &'static str {
    match reason {
        Reason::Rejected => "rejected",
        Reason::Expired => "expired",
        Reason::MaxLen => "maxlen",
        Reason::DeliveryLimit => "delivery_limit",
    }
}
