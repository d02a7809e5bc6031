//! Traces at the limits: so many records, so many bytes, so high a time.

use super::nonblocking::mix_events;
use super::random::Random;
use super::record::{Record, any_unlisted, joined, trace_of};
use super::shape::{chain, clocks_off, many_types, neighbours};
use super::{Draft, flat_table, near, table};
use crate::{MAX_BYTES, MAX_LATENCY, MAX_RECORDS, MAX_TIME, PROCESSORS};

/// Records about the limit of 2,048. The line of record 2,049 may be bad in other ways, too, and
/// unlisted lines may follow.
pub fn records(random: &mut Random) -> Draft {
    let count = MAX_RECORDS + random.pick(&[0, 1, 1, 1, 2]) - random.pick(&[0, 0, 0, 1]);
    let mut latencies = flat_table(0);
    let texts = |random: &mut Random, mut records: Vec<Record>| -> Vec<Vec<u8>> {
        mix_events(random, &mut records);
        records.iter().map(Record::text).collect()
    };
    let mut lines: Vec<Vec<u8>> = match random.below(8) {
        0 => {
            let processors = random.place(9) + 2;
            let mut run = neighbours(count, processors, 20);
            if random.chance(70) {
                clocks_off(&mut run, random.pick(&[100, 1_000_000]));
            }
            latencies = flat_table(random.pick(&[0, 1, 20]));
            texts(random, run)
        }
        1 => {
            let kinds = 0..random.between(1, 200);
            texts(random, many_types(count, kinds))
        }
        2 => {
            if random.chance(10) {
                latencies = flat_table(1);
            }
            texts(random, chain(count, 10))
        }
        _ => {
            // Ten marks, one of each processor, at the start or at the end; or none.
            let marks = random.pick(&[0, MAX_RECORDS - 10, count, count]);
            (0..count).map(|place| user_event(place, (marks..marks + 10).contains(&place))).collect()
        }
    };
    lines.truncate(count);
    match random.below(10) {
        0 => {
            for _ in 0..random.below(20) {
                lines.push(any_unlisted(random).text());
            }
        }
        1 => {
            let place = random.place(lines.len());
            lines.insert(place, any_unlisted(random).text());
        }
        2..6 => {
            // Record 2,049 good or bad in another way too, at the last time of processor 0.
            lines.truncate(MAX_RECORDS);
            let last = (lines.len() as i64 - 1) / 10 * 10;
            let early = Record::local(0, 0, last - random.between(0, 1), 0);
            lines.push(if random.chance(50) { early.text() } else { near::line(random, last) });
        }
        _ => {}
    }
    Draft { kind: "many records", trace: joined(&lines), latencies }
}

/// A user event on one of ten processors, or a mark of its tracing levels.
fn user_event(place: usize, mark: bool) -> Vec<u8> {
    let processor = place % 10;
    let record = match mark {
        true => format!("-2 -904 0.{place:06} {processor} 0 3 2 1 1 1"),
        false => format!("0 0 0.{place:06} {processor} 0 0"),
    };
    record.into_bytes()
}

/// Bytes about the limit of 65,536: filled up by lines passed over, or by one long line.
pub fn bytes(random: &mut Random) -> Draft {
    let length = match random.below(10) {
        0..4 => MAX_BYTES,
        4..8 => MAX_BYTES + 1,
        8 => MAX_BYTES - 1,
        _ => MAX_BYTES + random.place(5_000),
    };
    let mut trace = Vec::new();
    match random.below(4) {
        0 => {
            // Times that grow by a digit when they move: the written trace is above the limit.
            trace.extend(b"-3 -21 10.000000 0 0 3 2 8 1 1\n-4 -52 0.000000 1 0 3 2 8 1 0\n");
            for _ in 0..random.below(500) {
                trace.extend(b"0 0 0.000001 1 0 0\n");
            }
        }
        1 => {
            for place in 0..random.below(2_000) {
                trace.extend(format!("0 0 0.{place:06} 0 0 0\n").bytes());
            }
        }
        2 => {
            while trace.len() + 100 < length {
                trace.extend(any_unlisted(random).text());
                trace.push(b'\n');
            }
        }
        _ => {}
    }
    fill(random, &mut trace, length);
    if random.chance(10) {
        trace.pop();
        trace.push(random.pick(b"x \n"));
    }
    Draft { kind: "many bytes", trace, latencies: table(random) }
}

/// Brings a trace to this length by one long line that is passed over.
pub fn fill(random: &mut Random, trace: &mut Vec<u8>, length: usize) {
    let start: &[u8] = random.pick(&[&b"-5 0 0.000000 0 0 1 "[..], b"-3 -1 1.000000 99 9 999 ", b"-5 "]);
    if trace.len() + start.len() < length {
        trace.extend(start);
        trace.resize(length - 1, random.pick(b"x 0"));
        trace.push(b'\n');
    }
}

/// A message that arrives at the highest time there is, one microsecond before it or one after.
pub fn times(random: &mut Random) -> Draft {
    let left = random.pick(&[0, 1, 2, 999, MAX_LATENCY]);
    let latency = (i64::from(left) + random.between(-1, 1)).clamp(0, i64::from(MAX_LATENCY));
    let [sender, receiver] = [random.place(PROCESSORS), random.place(PROCESSORS)];
    let mut latencies = flat_table(0);
    latencies[PROCESSORS * sender + receiver] = latency as u32;
    let sent = MAX_TIME - i64::from(left);
    let shown = if sender == receiver { sent } else { random.pick(&[0, -MAX_TIME, sent, MAX_TIME]) };
    let mut records = vec![
        Record::send(-21, sent, sender as i64, 8, 1, receiver as i64),
        Record::receive(-52, shown, receiver as i64, 8, 1, sender as i64),
    ];
    mix_events(random, &mut records);
    if sender != receiver && random.chance(30) {
        records.swap(0, 1);
    }
    if random.chance(30) {
        records.push(Record::local(-2, 0, MAX_TIME, receiver as i64));
    }
    Draft { kind: "highest time", trace: trace_of(&records), latencies }
}
