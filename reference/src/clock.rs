//! The least sound set of times, round by round, with request 9 of document 02: a share of each gap is kept.

use crate::trace::Record;
use crate::{MAX_SHARE, MAX_TIME, PROCESSORS};

/// The times that the next round repeats, and the number of their round.
#[derive(Debug)]
pub struct Settled {
    pub times: Vec<i64>,
    pub rounds: u64,
}

/// What a record's time may not be below.
#[derive(Clone, Debug)]
pub struct Floor {
    pub original: i64,
    /// The place of the record before it on its processor, and the gap that is kept between them.
    pub before: Option<(usize, i64)>,
    /// For a receive, the place of its send, and the latency.
    pub send: Option<(usize, i64)>,
}

/// The first round that the next one repeats. None if a time passes the limit, or if the rounds do
/// not end: sound times are there after one less than the number of records, or never.
pub fn settle(floors: &[Floor]) -> Option<Settled> {
    let mut times: Vec<i64> = floors.iter().map(|floor| floor.original).collect();
    for rounds in 0..floors.len().max(1) {
        let next = round(floors, &times);
        if next == times {
            return Some(Settled { times, rounds: rounds as u64 });
        }
        if next.iter().any(|&time| time > MAX_TIME) {
            return None;
        }
        times = next;
    }
    None
}

/// "at least that many thousandths of their original gap, rounded down". A thousand times the longest gap is
/// 2 * 10^18, which 64 bits hold.
pub fn kept(share: u32, gap: i64) -> i64 {
    i64::from(share) * gap / i64::from(MAX_SHARE)
}

/// Those of all records.
pub fn floors(records: &[Record], send_of: &[Option<usize>], latencies: &[u32], share: u32) -> Vec<Floor> {
    let mut last: [Option<usize>; PROCESSORS] = [None; PROCESSORS];
    let mut floors = Vec::with_capacity(records.len());
    for (place, record) in records.iter().enumerate() {
        let before = last[record.processor].replace(place);
        let before = before.map(|before| (before, kept(share, record.time - records[before].time)));
        let send = send_of[place].map(|send| {
            let entry = PROCESSORS * records[send].processor + record.processor;
            (send, i64::from(latencies[entry]))
        });
        floors.push(Floor { original: record.time, before, send });
    }
    floors
}

/// One round: everything is taken from the round before.
fn round(floors: &[Floor], times: &[i64]) -> Vec<i64> {
    let raised = floors.iter().map(|floor| {
        let mut time = floor.original;
        if let Some((before, kept)) = floor.before {
            time = time.max(times[before] + kept);
        }
        if let Some((send, latency)) = floor.send {
            time = time.max(times[send] + latency);
        }
        time
    });
    raised.collect()
}
