//! The lines of a trace one after the other, and the trace written again with other times.

use crate::field;
use crate::form::write_time;
use crate::levels::Levels;
use crate::line::{self, Line, Role, Subject};
use crate::refusal::{BYTES, ORDER, RECORDS, Refusal};
use crate::{Choice, MAX_BYTES, MAX_RECORDS, PROCESSORS};
use std::ops::Range;

/// A listed record in its trace.
#[derive(Clone, Debug, PartialEq, Eq)]
pub struct Record {
    /// Its line, counted from 1.
    pub line: u64,
    pub processor: usize,
    pub time: i64,
    /// Where its timestamp stands in the trace.
    pub stamp: Range<usize>,
    pub role: Role,
    /// The tracing levels that it tells, if it is a mark that counts.
    pub levels: Option<Levels>,
    /// What it is to the statistics.
    pub subject: Subject,
}

/// The listed records in file order, and how many lines were passed over.
#[derive(Debug)]
pub struct Listing {
    pub records: Vec<Record>,
    pub passed: u64,
}

/// Reads a trace: the refusals 4 to 12.
pub fn read(trace: &[u8], choice: Choice) -> Result<Listing, Refusal> {
    if trace.len() > MAX_BYTES {
        return Err(Refusal::of_all(BYTES));
    }
    lines(trace, choice)
}

/// Reads line by line, however many there are; the first bad line decides.
pub fn lines(trace: &[u8], choice: Choice) -> Result<Listing, Refusal> {
    let mut records = Vec::new();
    let mut passed = 0;
    let mut last: [Option<i64>; PROCESSORS] = [None; PROCESSORS];
    let mut start = 0;
    for (text, number) in trace.split_inclusive(|&byte| byte == b'\n').zip(1..) {
        let refused = |refusal| Refusal::of_line(refusal, number);
        let without_end = text.strip_suffix(b"\n").ok_or(field::missing(text));
        let read = without_end.and_then(|line| line::read(line, choice));
        match read.map_err(|fault| fault.in_line(number))? {
            Line::Passed => passed += 1,
            Line::Listed(line::Record { processor, time, stamp, role, levels, subject }) => {
                if last[processor].is_some_and(|last| time < last) {
                    return Err(refused(ORDER));
                }
                if records.len() == MAX_RECORDS {
                    return Err(refused(RECORDS));
                }
                last[processor] = Some(time);
                let stamp = start + stamp.start..start + stamp.end;
                records.push(Record { line: number, processor, time, stamp, role, levels, subject });
            }
        }
        start += text.len();
    }
    Ok(Listing { records, passed })
}

/// The trace's bytes with each listed record's timestamp replaced.
pub fn rewrite(trace: &[u8], records: &[Record], times: &[i64]) -> Vec<u8> {
    let mut text = Vec::with_capacity(trace.len());
    let mut copied = 0;
    for (record, &time) in records.iter().zip(times) {
        text.extend_from_slice(&trace[copied..record.stamp.start]);
        write_time(time, &mut text);
        copied = record.stamp.end;
    }
    text.extend_from_slice(&trace[copied..]);
    text
}
