//! What programs of cases and of checks share.
#![tactic(auto)]

mod answers;
mod random;
mod trials;
mod words;

pub use answers::answer_lines;
pub use random::Random;
pub use trials::Trials;
pub use words::Words;
