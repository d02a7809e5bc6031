//! Document 01 and requests 1 to 9 of document 02 in plain Rust: one trace in; verdict, counts, corrected
//! times and the corrected trace out; or its messages, or why a time moved. Or two traces in, and one out.
//!
//! Written from the papers alone, to be held against the proved library (`outside/compare.rs`) and
//! measured beside it (`outside/bench.rs`). The modules follow the papers' order: [`form`],
//! [`field`] and [`line`] are "One line, one record" and requests 2 and 5, [`trace`] reads line after line,
//! [`levels`] is request 1, [`message`] and [`clock`] are "Matching and the clock condition" and requests 4
//! and 9, [`report`] is what the program prints, [`merge`] is request 6, [`list`] and [`chain`] are request
//! 7, and [`statistics`] is request 8. Request 3 asks for speed alone.

#![forbid(unsafe_code)]

pub mod chain;
pub mod clock;
pub mod deciding;
pub mod field;
pub mod form;
pub mod generator;
mod lent;
pub mod levels;
pub mod line;
pub mod list;
pub mod list_trial;
pub mod merge;
pub mod merge_trial;
pub mod message;
pub mod refusal;
pub mod report;
pub mod statistics;
pub mod trace;
pub mod trial;

use levels::Levels;
use refusal::Refusal;

/// Processors are numbered below this.
pub const PROCESSORS: usize = 64;
/// One latency for each pair, the entry at 64 times sender plus receiver.
pub const LATENCIES: usize = PROCESSORS * PROCESSORS;
/// The highest latency, in microseconds.
pub const MAX_LATENCY: u32 = 1_000_000;
/// The most bytes that a trace may have, and the room that the program lends.
pub const MAX_BYTES: usize = 65_536;
/// The most listed records, and the number of lent times.
pub const MAX_RECORDS: usize = 2_048;
/// The highest share of a gap that can be kept, in thousandths: all of it.
pub const MAX_SHARE: u32 = 1_000;
/// The highest time, in microseconds; the lowest is its negative.
pub const MAX_TIME: i64 = 999_999_999_999_999;

/// What a caller gets back: the papers' ten numbers.
#[derive(Clone, Copy, Debug, Default, PartialEq, Eq)]
pub struct Answer {
    /// 0 for an accepted trace, else the refusal.
    pub number: u64,
    /// The line that the refusal means, counted from 1; 0 for none.
    pub line: u64,
    /// The column at which the field begins that a refusal from 5 to 10 means, counted from 1 in bytes; one
    /// past the line's last byte where a field or the LF is missing. 0 for none.
    pub column: u64,
    /// 1 consistent, 2 corrected, 3 nothing to judge; 0 if refused.
    pub verdict: u64,
    pub listed: u64,
    pub passed: u64,
    pub matched: u64,
    pub unreceived: u64,
    pub rounds: u64,
    /// The length of the written trace; 0 if it was not asked for.
    pub written: u64,
}

/// What the caller names beside the trace and the table; nothing in it has a default.
#[derive(Clone, Copy, Debug, PartialEq, Eq)]
pub struct Asked {
    /// 1 strict, 2 lenient.
    pub choice: u32,
    /// Whether the levels below are expected: 0 off, 1 on.
    pub levels: u32,
    /// The three expected tracing levels, in the order of a mark's data; any numbers, and not looked at
    /// where they are off.
    pub picl: i64,
    pub user: i64,
    pub trace: i64,
    /// Whether statistics records are compared: 0 off, 1 on.
    pub statistics: u32,
    /// How many thousandths are kept of the gap between a record and the one before it on its processor.
    pub share: u32,
}

impl Asked {
    /// A choice, and nothing else is asked for.
    pub const fn choice_alone(choice: u32) -> Asked {
        Asked { choice, levels: 0, picl: 0, user: 0, trace: 0, statistics: 0, share: 0 }
    }

    pub const fn expecting(choice: u32, Levels { picl, user, trace }: Levels) -> Asked {
        Asked { levels: 1, picl, user, trace, ..Asked::choice_alone(choice) }
    }

    pub const fn comparing(choice: u32) -> Asked {
        Asked { statistics: 1, ..Asked::choice_alone(choice) }
    }

    /// The same, and such a share of every gap is kept.
    pub const fn keeping(self, share: u32) -> Asked {
        Asked { share, ..self }
    }

    /// What the numbers say; none if one of them is refusal 1. The share is none of these: it is refusal 2.
    fn heard(self) -> Option<Heard> {
        let Asked { choice, levels, picl, user, trace, statistics, share: _ } = self;
        let expected = is_on(levels)?.then_some(Levels { picl, user, trace });
        Some(Heard { choice: Choice::numbered(choice)?, expected, compared: is_on(statistics)? })
    }
}

/// What is asked for, where all numbers are good.
struct Heard {
    choice: Choice,
    expected: Option<Levels>,
    compared: bool,
}

/// What a switch says, if it is one.
fn is_on(switch: u32) -> Option<bool> {
    match switch {
        0 => Some(false),
        1 => Some(true),
        _ => None,
    }
}

/// Whether unlisted lines are refused or passed over.
#[derive(Clone, Copy, Debug, PartialEq, Eq)]
pub enum Choice {
    Strict,
    Lenient,
}

impl Choice {
    /// By its number; none is refusal 1.
    pub fn numbered(number: u32) -> Option<Choice> {
        match number {
            1 => Some(Choice::Strict),
            2 => Some(Choice::Lenient),
            _ => None,
        }
    }
}

/// What every call on one trace is given: the trace, a table and what is asked.
#[derive(Clone, Copy)]
pub struct Question<'a> {
    pub trace: &'a [u8],
    pub latencies: &'a [u32],
    pub asked: Asked,
}

/// What judging is given: a trace, a table and what is asked, and what it may write to.
pub struct Inputs<'a> {
    pub trace: &'a [u8],
    pub latencies: &'a [u32],
    pub asked: Asked,
    pub times: &'a mut [i64],
    pub wanted: bool,
    pub room: &'a mut [u8],
}

impl Inputs<'_> {
    /// The same call, lent on.
    pub fn lent(&mut self) -> Inputs<'_> {
        Inputs { times: self.times, room: self.room, ..*self }
    }
}

/// Judges a trace. An accepted one leaves the corrected times in the first places of `times` and, if
/// `wanted`, the written trace at the start of `room`; a refusal touches neither.
pub fn judge(call: Inputs) -> Answer {
    accept(call).unwrap_or_else(|Refusal { number, line, column }| Answer {
        number,
        line,
        column,
        ..Answer::default()
    })
}

/// What a trace comes to that is refused by none of 1 to 15, 17 and 19.
pub struct Solved {
    pub records: Vec<trace::Record>,
    pub passed: u64,
    pub messages: message::Messages,
    pub floors: Vec<clock::Floor>,
    pub settled: clock::Settled,
}

/// Reads a trace, pairs its messages and settles its times. The times that are lent are so many.
pub fn solve(question: Question, times: usize) -> Result<Solved, Refusal> {
    let Question { trace, latencies, asked } = question;
    let Heard { choice, expected, compared } = asked.heard().ok_or(Refusal::of_all(refusal::ASKED))?;
    if latencies.len() != LATENCIES || times != MAX_RECORDS || asked.share > MAX_SHARE {
        return Err(Refusal::of_all(refusal::SIZE));
    }
    if latencies.iter().any(|&latency| latency > MAX_LATENCY) {
        return Err(Refusal::of_all(refusal::LATENCY));
    }

    let trace::Listing { records, passed } = trace::read(trace, choice)?;
    if let Some(expected) = expected {
        levels::check(&records, expected)?;
    }
    if compared {
        statistics::check(&records)?;
    }
    let messages = message::pair(&records)?;
    let floors = clock::floors(&records, &messages.send_of, latencies, asked.share);
    let settled = clock::settle(&floors).ok_or(Refusal::of_all(refusal::NO_TIMES))?;
    Ok(Solved { records, passed, messages, floors, settled })
}

fn accept(call: Inputs) -> Result<Answer, Refusal> {
    let Inputs { trace, latencies, asked, times, wanted, room } = call;
    let Solved { records, passed, messages, settled, .. } =
        solve(Question { trace, latencies, asked }, times.len())?;
    let message::Messages { matched, unreceived, .. } = messages;
    let clock::Settled { times: corrected, rounds } = settled;

    let mut written = 0;
    if wanted {
        let text = trace::rewrite(trace, &records, &corrected);
        let start = room.get_mut(..text.len()).ok_or(Refusal::of_all(refusal::ROOM))?;
        start.copy_from_slice(&text);
        written = text.len();
    }
    times[..corrected.len()].copy_from_slice(&corrected);

    let moved = records.iter().zip(&corrected).any(|(record, &time)| record.time != time);
    let verdict = match (matched, moved) {
        (0, _) => 3,
        (_, true) => 2,
        (_, false) => 1,
    };
    Ok(Answer {
        number: 0,
        line: 0,
        column: 0,
        verdict,
        listed: records.len() as u64,
        passed,
        matched,
        unreceived,
        rounds,
        written: written as u64,
    })
}
