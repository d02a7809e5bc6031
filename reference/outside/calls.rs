//! Calls of the library, of an older one and of the reference, taking turns.
//!
//! All of them run on the same buffers, which are not cleared between calls.

#[path = "archive.rs"]
pub mod archive;
#[cfg(feature = "before")]
#[cfg_attr(not(feature = "before-statistics"), path = "before.rs")]
#[cfg_attr(all(feature = "before-statistics", not(feature = "before-column")), path = "before_statistics.rs")]
#[cfg_attr(all(feature = "before-column", not(feature = "before-levels")), path = "before_column.rs")]
#[cfg_attr(feature = "before-levels", path = "before_levels.rs")]
mod before;
#[cfg(feature = "before-statistics")]
#[path = "older_call.rs"]
mod older_call;
#[cfg(feature = "before-column")]
#[path = "without_column.rs"]
mod without_column;
#[cfg(all(feature = "before-statistics", not(feature = "before-levels")))]
#[path = "without_statistics.rs"]
pub mod without_statistics;

use crate::sample;
use crate::turns::Sides;
use reference::generator::workload::Workload;
use reference::{Answer, Inputs, MAX_BYTES, MAX_RECORDS, judge};
use std::hint::black_box;

/// Who judges, and what of an answer it tells.
#[derive(Clone, Copy)]
pub struct Judge {
    judge: fn(Inputs) -> Answer,
    tells: fn(Answer) -> Answer,
}

impl Judge {
    /// One that tells all of it.
    fn of(judge: fn(Inputs) -> Answer) -> Judge {
        Judge { judge, tells: |answer| answer }
    }
}

/// The older library, if it can be asked what this workload asks.
#[cfg(feature = "before")]
fn before(workload: &Workload) -> Option<Judge> {
    before::knows(workload.asked).then_some(Judge { judge: before::judge, tells: before::tells })
}
#[cfg(not(feature = "before"))]
fn before(_: &Workload) -> Option<Judge> {
    None
}

/// Who judges a workload.
pub fn judges(workload: &Workload) -> Sides<Judge> {
    Sides { ours: Judge::of(archive::judge), before: before(workload), reference: Judge::of(judge) }
}

/// A workload that is judged again and again.
pub struct Calls<'a> {
    workload: &'a Workload,
    times: Vec<i64>,
    room: Vec<u8>,
    /// So many calls are a sample.
    many: u32,
    /// What every side answers, as far as it tells it.
    pub expected: Answer,
}

impl<'a> Calls<'a> {
    /// Lets every side judge the workload once, and tells where one of them differs from the reference.
    pub fn of(workload: &'a Workload) -> Result<Calls<'a>, String> {
        let (times, room) = (vec![0; MAX_RECORDS], vec![0; MAX_BYTES + MAX_RECORDS]);
        let mut calls = Calls { workload, times, room, many: 1, expected: Answer::default() };
        let sides = judges(workload);
        calls.expected = calls.call(sides.reference);
        for (side, &held) in sides.held_to_it() {
            let (given, expected) = (calls.call(held), (held.tells)(calls.expected));
            if given != expected {
                let name = workload.name;
                return Err(format!(
                    "{name}: answers differ, {side} and reference:\n  {given:?}\n  {expected:?}"
                ));
            }
        }
        calls.many = sample::many_like(|| {
            black_box(calls.call(sides.reference));
        });
        Ok(calls)
    }

    fn call(&mut self, judge: Judge) -> Answer {
        let &Workload { asked, ref trace, ref latencies, wanted, .. } = self.workload;
        let (times, room) = (&mut self.times, &mut self.room);
        (judge.judge)(Inputs { trace, latencies, asked, times, wanted, room })
    }

    /// The microseconds of one call, by a sample of calls.
    pub fn sample(&mut self, judge: Judge) -> f64 {
        sample::microseconds(self.many, || {
            black_box(self.call(judge));
        })
    }
}
