//! A library of version 0.1 as a judge, in the place of `before.rs`: it was called with the choice alone, and
//! its answer had no column.

use super::without_column;
use reference::{Answer, Asked, Inputs};

pub use without_column::tells;

/// `struct cantuvesh_asked` as it was.
#[repr(C)]
struct AskedBefore {
    choice: u32,
}

/// Whether the older library can be asked this.
pub fn knows(asked: Asked) -> bool {
    asked.levels == 0 && asked.statistics == 0 && asked.share == 0
}

/// Judges a trace by the older library.
pub fn judge(call: Inputs) -> Answer {
    let asked = AskedBefore { choice: call.asked.choice };
    // SAFETY: this is what was asked in version 0.1.
    unsafe { without_column::judge(asked, call) }
}
