//! A library of version 0.2 to 0.4 as a judge, in the place of `before.rs`: its answer had no column.

use super::without_column;
use super::without_statistics::asked_of;
use reference::{Answer, Inputs};

pub use super::without_statistics::knows;
pub use without_column::tells;

/// Judges a trace by the older library.
pub fn judge(call: Inputs) -> Answer {
    // SAFETY: this is what was asked from version 0.2 to 0.7.
    unsafe { without_column::judge(asked_of(call.asked), call) }
}
