//! An older library as a judge, from version 0.8 on. `reference/bench` has given its function another name, so
//! that it can be linked beside the new one.

use super::archive::judge_by;
use cantuvesh::raw::LINKED;
use reference::{Answer, Asked, Inputs};

unsafe extern "C" {
    fn cantuvesh_judge_before();
}

/// Whether the older library can be asked this. Version 0.8 kept no gaps: what was asked ended in four bytes that
/// nobody looked at, where the share stands now.
pub fn knows(asked: Asked) -> bool {
    asked.share == 0 || cfg!(not(feature = "before-share"))
}

/// What of an answer the older library tells.
pub fn tells(answer: Answer) -> Answer {
    answer
}

/// Judges a trace by the older library.
pub fn judge(call: Inputs) -> Answer {
    // SAFETY: this is the function of an older library with the same C call.
    judge_by(unsafe { LINKED.judging_by(cantuvesh_judge_before) }, call)
}
