use crate::draw::Draw;
use cases::Random;
use qq_base::QueueId;
use qq_entry::{Overflow, QueueArgs, Strategy};
use std::alloc::Global;

// A limit below an end, or none.
fn draw_limit(random: &mut Random, end: u64) -> Option<u64> {
    if random.once_in(2) {
        return None;
    }
    Some(random.below(end))
}

/// Random arguments of a queue, with limits that few messages reach.
pub fn draw_args(alloc: Global, random: &mut Random) -> QueueArgs {
    let mut args = QueueArgs::new(alloc, QueueId(1), 1);
    args.max_length = draw_limit(random, 6);
    args.max_bytes = draw_limit(random, 16);
    if random.once_in(2) {
        args.overflow = Overflow::RejectPublish;
    }
    args.delivery_limit = draw_limit(random, 4);
    args.single_active = random.once_in(4);
    args.strategy = match random.below(3) {
        0 => Strategy::Absent,
        1 => Strategy::AtMostOnce,
        _ => Strategy::AtLeastOnce,
    };
    if random.once_in(3) {
        args.live = random.below(12) + 1;
    }
    args
}
