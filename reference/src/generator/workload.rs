//! The traces that the benchmark runs on, each at or near a limit of size.

use super::flat_table;
use super::record::{Data, Record, joined, trace_of};
use super::shape::{chain, clocks_off, many_types, neighbours, spread};
use crate::levels::Levels;
use crate::statistics::Sums;
use crate::{Asked, MAX_BYTES, MAX_RECORDS};

/// A trace and its table, read leniently.
pub struct Workload {
    pub name: &'static str,
    pub asked: Asked,
    pub trace: Vec<u8>,
    pub latencies: Vec<u32>,
    pub wanted: bool,
}

/// Two traces that are merged.
pub struct Nodes {
    pub name: &'static str,
    pub first: Vec<u8>,
    pub second: Vec<u8>,
    pub choice: u32,
}

/// Ten processors keep a line of a message at 30 bytes, so that 2,048 of them fit.
pub const ROW: usize = 10;
const LATENCY: u32 = 20;
const LEVELS: Levels = Levels { picl: 4, user: 4, trace: 0 };

pub fn all() -> Vec<Workload> {
    let sound = neighbours(MAX_RECORDS, ROW, i64::from(LATENCY));
    let mut off = sound.clone();
    clocks_off(&mut off, 1_000_000);
    let asked = Asked::choice_alone(2);
    let of = |name, trace, latency| {
        let latencies = flat_table(latency);
        Workload { name, asked, trace, latencies, wanted: false }
    };
    let marks = trace_of(&with_marks(&sound));
    vec![
        of("2,048 records without messages", trace_of(&user_events(MAX_RECORDS)), 0),
        of("neighbours, sound clocks", trace_of(&sound), LATENCY),
        Workload { asked: Asked::expecting(2, LEVELS), ..of("the same, marks as expected", marks, LATENCY) },
        of("neighbours, clocks off by a second", trace_of(&off), LATENCY),
        Workload { wanted: true, ..of("the same, the written trace wanted", trace_of(&off), LATENCY) },
        of("a chain of 2,000 rounds", trace_of(&chain(LINKS, ROW)), 1),
        of("65,536 bytes passed over", passed_over(), 0),
        of("a hundred types on one pair", trace_of(&many_types(MAX_RECORDS, 0..100)), 5),
        of("a hundred negative types on one pair", trace_of(&many_types(MAX_RECORDS, -100..0)), 5),
        of("a bad last line", bad_last_line(sound), LATENCY),
        Workload { asked: Asked::comparing(2), ..of("2,048 records, a tenth statistics", told(), 0) },
        Workload {
            asked: asked.keeping(500),
            ..of("a chain of gaps, half of each kept", chain_with_gaps(), 1)
        },
    ]
}

pub fn merged() -> Vec<Nodes> {
    let [first, second] = neighbours_on_two_nodes();
    let [ours, theirs] = [0, 1].map(passed_over_on);
    vec![
        Nodes { name: "two traces of 2,048 records, merged", first, second, choice: 1 },
        Nodes { name: "two of lines passed over, merged", first: ours, second: theirs, choice: 2 },
    ]
}

/// A trace whose messages are listed, and one whose last record has a chain of 2,000 steps.
pub fn lists() -> [Workload; 2] {
    let of = |name, records: &[Record], latency| {
        let (trace, latencies) = (trace_of(records), flat_table(latency));
        Workload { name, asked: Asked::choice_alone(2), trace, latencies, wanted: false }
    };
    // Others before the chain, of a processor that is not in it, so that there are as many as there may be.
    let others = (0..MAX_RECORDS - LINKS).map(|_| Record::local(0, 0, 0, ROW as i64));
    let chained: Vec<Record> = others.chain(chain(LINKS, ROW)).collect();
    [
        of("1,024 messages of 2,048 records", &many_types(MAX_RECORDS, 0..100), 5),
        of("a chain of 2,000 steps", &chained, 1),
    ]
}

/// The records of that chain: one more than its steps.
const LINKS: usize = 2_001;

/// A message handed on by processors whose records are ten microseconds apart: it takes so long to come round to
/// one of them again that nearly all records are later than they were shown, and by all the gaps before them.
fn chain_with_gaps() -> Vec<u8> {
    let mut records = chain(MAX_RECORDS, ROW);
    spread(&mut records, 10);
    trace_of(&records)
}

/// Half of the row on either node, as many records as it may have.
fn neighbours_on_two_nodes() -> [Vec<u8>; 2] {
    let all = neighbours(3 * MAX_RECORDS, ROW, i64::from(LATENCY));
    let half = ROW as i64 / 2;
    let (mut ours, mut theirs): (Vec<_>, Vec<_>) =
        all.into_iter().partition(|record| record.processor < half);
    [&mut ours, &mut theirs].map(|records| {
        records.truncate(MAX_RECORDS);
        trace_of(records)
    })
}

/// Lines of one node that are passed over, as many as there is room for, each between two of another one's.
fn passed_over_on(node: usize) -> Vec<u8> {
    let line = |place| {
        let micros = 2 * place + node;
        format!("-111 -1 0.{micros:06} {node} 0 2 \"%d%lf\" 0 0.000523 1 0.001013\n")
    };
    let lines = MAX_BYTES / line(0).len();
    (0..lines).map(line).collect::<String>().into_bytes()
}

/// Ten processors enter and leave ten events, and every tenth record tells sixteen pairs of what one of them
/// did so far.
fn told() -> Vec<u8> {
    let mut sums = [[Sums::default(); ROW]; ROW];
    let mut steps = (0..MAX_RECORDS).map(|step| (step % 2, step / 2 % ROW, step / 2 / ROW % ROW));
    let records: Vec<Record> = (0..MAX_RECORDS)
        .map(|place| {
            let time = place as i64;
            if place % 10 == 9 {
                let processor = place / 10 % ROW;
                return Record { time, ..statistics(place / 10, processor, &sums[processor]) };
            }
            let (half, processor, event) = steps.next().unwrap_or_default();
            let sums = &mut sums[processor][event];
            if half == 0 {
                sums.entries += 1;
                sums.spent -= i128::from(time);
            } else {
                sums.exits += 1;
                sums.spent += i128::from(time);
            }
            Record::local(if half == 0 { -3 } else { -4 }, event as i64, time, processor as i64)
        })
        .collect();
    trace_of(&records)
}

/// Counts more often than times, which are longer, and than volumes.
fn statistics(place: usize, processor: usize, sums: &[Sums; ROW]) -> Record {
    let record_type = [-102, -101, -102, -103][place % 4];
    let pair = |pair: usize| {
        let event = pair % ROW;
        let Sums { entries, exits, spent, .. } = sums[event];
        match record_type {
            -101 if entries == exits => (event as i64, spent as i64),
            -101 => (event as i64, 0),
            -102 => (event as i64, entries as i64),
            _ => ([-21, -51, -52][pair % 3], 0),
        }
    };
    let data = Data::Pairs((0..16).map(pair).collect());
    Record { data, ..Record::local(record_type, -1, 0, processor as i64) }
}

fn user_events(records: usize) -> Vec<Record> {
    (0..records as i64)
        .map(|place| {
            let mut record = Record::local(-3 - place % 2, place % 50, 100 * place, place % 64);
            if place % 4 == 0 {
                record.data = Data::Wholes(vec![place, -1]);
            }
            record
        })
        .collect()
}

/// So many of these records, every seventh of them followed by a mark of its processor's levels.
fn with_marks(records: &[Record]) -> Vec<Record> {
    let data = Data::Wholes(vec![LEVELS.picl, LEVELS.user, LEVELS.trace]);
    let mut marked = Vec::with_capacity(MAX_RECORDS);
    for (place, record) in records.iter().enumerate() {
        marked.push(record.clone());
        if place % 7 == 0 {
            let mark = Record::local(-2, -904, record.time, record.processor);
            marked.push(Record { data: data.clone(), ..mark });
        }
    }
    marked.truncate(MAX_RECORDS);
    marked
}

/// Lines as long as the statistics of the report's Table 20, but of record types that are not listed, to the
/// last byte.
fn passed_over() -> Vec<u8> {
    let lines = [
        &b"-111 -1 0.001982 6 0 2 \"%d%lf\" 0 0.000523 1 0.001013\n"[..],
        b"-112 -1 0.001982 6 0 2 \"%d%d\" 0 1 1 1\n",
        b"-113 1 0.001982 6 0 2 \"%d%d\" -21 8 -52 8\n",
    ];
    let mut trace: Vec<u8> = lines.into_iter().cycle().take(1_600).flatten().copied().collect();
    trace.truncate(MAX_BYTES - 60);
    let whole_lines = trace.iter().rposition(|&byte| byte == b'\n').map_or(0, |last| last + 1);
    trace.truncate(whole_lines);
    trace.extend(lines[0]);
    let end = trace.len() - 1;
    trace.splice(end..end, vec![b' '; MAX_BYTES - 1 - end]);
    trace
}

fn bad_last_line(mut records: Vec<Record>) -> Vec<u8> {
    records.pop();
    let mut lines: Vec<Vec<u8>> = records.iter().map(Record::text).collect();
    lines.push(b"-4 -52 0.000000 9 0 3 2 8 1 x".to_vec());
    joined(&lines)
}
