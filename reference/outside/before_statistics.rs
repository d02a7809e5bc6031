//! A library of version 0.5 to 0.7 as a judge, in the place of `before.rs`: it was not asked for statistics.

use super::archive::answer_of;
use super::older_call;
use super::without_statistics::asked_of;
use reference::{Answer, Inputs};

pub use super::without_statistics::knows;

/// What of an answer the older library tells.
pub fn tells(answer: Answer) -> Answer {
    answer
}

/// Judges a trace by the older library.
pub fn judge(call: Inputs) -> Answer {
    // SAFETY: this is what was asked from version 0.2 to 0.7, and the answer from 0.5 on is today's.
    answer_of(unsafe { older_call::judge(asked_of(call.asked), call) })
}
