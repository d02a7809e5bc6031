//! The library as a judge: called by its binding, which gives the numbers as they are.

use cantuvesh::raw::{self, Library};
use reference::{Answer, Asked, Inputs};

/// Judges a trace by the library.
pub fn judge(call: Inputs) -> Answer {
    judge_by(raw::LINKED, call)
}

/// Judges a trace by one library or another.
pub fn judge_by(library: Library, call: Inputs) -> Answer {
    let Inputs { trace, latencies, asked, times, wanted, room } = call;
    answer_of(library.judge(trace, latencies, asked_of(asked), times, wanted, room))
}

/// What the reference is asked as the library is.
pub fn asked_of(asked: Asked) -> raw::Asked {
    let Asked { choice, levels, picl, user, trace, statistics, share } = asked;
    raw::Asked { choice, levels, picl, user, trace, statistics, share }
}

/// The library's answer as the reference's.
pub fn answer_of(given: raw::Answer) -> Answer {
    let raw::Answer { number, line, column, verdict, listed, passed, matched, unreceived, rounds, written } =
        given;
    Answer { number, line, column, verdict, listed, passed, matched, unreceived, rounds, written }
}
