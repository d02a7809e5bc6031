//! Request 1 of document 02: which flags the collector really had.

use crate::PROCESSORS;
use crate::refusal::{LEVELS, Refusal};
use crate::trace::Record;

/// The three tracing levels, in the order of a mark's data.
#[derive(Clone, Copy, Debug, PartialEq, Eq)]
pub struct Levels {
    pub picl: i64,
    pub user: i64,
    pub trace: i64,
}

/// What the lines so far leave of a processor with listed records.
#[derive(Clone, Copy)]
struct Last {
    /// The line of its last listed record.
    line: u64,
    /// What its last mark that counts tells, if it has one.
    levels: Option<Levels>,
}

/// Every processor with listed records has a mark, and its last one is as expected; else the smallest
/// that has not decides, and the line is that of its last listed record.
pub fn check(records: &[Record], expected: Levels) -> Result<(), Refusal> {
    let mut last_of: [Option<Last>; PROCESSORS] = [None; PROCESSORS];
    for record in records {
        let last = &mut last_of[record.processor];
        let levels = record.levels.or(last.and_then(|last| last.levels));
        *last = Some(Last { line: record.line, levels });
    }
    match last_of.into_iter().flatten().find(|last| last.levels != Some(expected)) {
        Some(Last { line, .. }) => Err(Refusal::of_line(LEVELS, line)),
        None => Ok(()),
    }
}
