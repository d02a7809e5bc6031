//! The call of the libraries before version 0.5, whose answer had no column.

use super::older_call;
use reference::{Answer, Inputs};

/// `struct cantuvesh_answer` as it was.
#[repr(C)]
struct AnswerBefore {
    number: u64,
    line: u64,
    verdict: u64,
    listed: u64,
    passed: u64,
    matched: u64,
    unreceived: u64,
    rounds: u64,
    written: u64,
}

/// What of an answer such a library tells.
pub fn tells(answer: Answer) -> Answer {
    Answer { column: 0, ..answer }
}

/// Judges a trace by such a library.
///
/// # Safety
///
/// `AskedBefore` is laid out as `struct cantuvesh_asked` was in that library's version.
pub unsafe fn judge<AskedBefore>(asked: AskedBefore, call: Inputs) -> Answer {
    // SAFETY: this is what was answered before version 0.5, what is asked being as the caller says.
    let AnswerBefore { number, line, verdict, listed, passed, matched, unreceived, rounds, written } =
        unsafe { older_call::judge(asked, call) };
    Answer { number, line, column: 0, verdict, listed, passed, matched, unreceived, rounds, written }
}
