//! Runs with something wrong: in a message, in a time, or in the text of one line.

use super::random::Random;
use super::record::{Data, RECEIVES, Record, joined, trace_of};
use super::run::any_run;
use super::{Draft, table};
use crate::MAX_TIME;

/// What a message's event may be changed to: others of messages, and both sides of every border between
/// those listed, those not handled and those unlisted.
const OTHER_EVENTS: [i64; 23] = [
    -20, -21, -22, -26, -27, -28, -29, -30, -31, -32, -50, -51, -52, -53, -56, -57, -58, -59, -60, -61, -62,
    -80, -81,
];

/// A run whose messages or times do not fit: lost, doubled, changed or exchanged records.
pub fn in_messages(random: &mut Random) -> Draft {
    let table = table(random);
    let mut records = any_run(random, &table, 0);
    for _ in 0..=random.below(2) {
        spoil_record(random, &mut records);
    }
    Draft { kind: "wrong message", trace: trace_of(&records), latencies: table }
}

fn spoil_record(random: &mut Random, records: &mut Vec<Record>) {
    let messages: Vec<usize> = (0..records.len()).filter(|&place| records[place].is_message()).collect();
    if messages.is_empty() {
        let stray = Record::receive(random.pick(&RECEIVES), MAX_TIME, 0, 8, 1, random.between(0, 2));
        records.push(stray);
        return;
    }
    let place = random.pick(&messages);
    match random.below(12) {
        0 | 1 => drop(records.remove(place)),
        2 => records.insert(place, records[place].clone()),
        3..7 => change_datum(random, &mut records[place]),
        7 => {
            let other = random.place(records.len());
            records.swap(place, other);
        }
        8 => records[place].time -= random.pick(&[1, 1, 10, 1_000_000]),
        9 => records[place].event = random.pick(&OTHER_EVENTS),
        _ => add_bytes(random, &mut records[place]),
    }
}

/// More bytes than there were: of a send, and its receive is short; of a receive, and it is too long.
fn add_bytes(random: &mut Random, record: &mut Record) {
    if let Data::Wholes(values) = &mut record.data {
        values[0] += random.pick(&[1, 1, 8]);
    }
}

fn change_datum(random: &mut Random, record: &mut Record) {
    if let Data::Wholes(values) = &mut record.data {
        match random.below(9) {
            0..4 => values[0] = random.pick(&[0, 7, 9, 16, 999_999_999, -1]),
            4 | 5 => values[1] += random.pick(&[-1, 1, 2]),
            6 | 7 => values[2] = random.pick(&[0, 1, 2, 62, 63, 64, -1, values[2], 999_999_999]),
            // The process, which the report has as a fourth.
            _ => values.push(0),
        }
    }
}

/// A run with a fault in the text of one line, now and then of two.
pub fn in_text(random: &mut Random) -> Draft {
    let table = table(random);
    let records = any_run(random, &table, 0);
    let mut lines: Vec<Vec<u8>> = records.iter().map(Record::text).collect();
    if lines.is_empty() {
        lines.push(b"-2 0 0.000000 0 0 0".to_vec());
    }
    for _ in 0..=random.below(5) / 4 {
        let place = random.place(lines.len());
        spoil_line(random, &mut lines[place]);
    }
    let mut trace = joined(&lines);
    match random.below(40) {
        0..3 => drop(trace.pop()),
        3 => trace.extend(b" "),
        4 => trace.insert(0, b'\n'),
        5 => trace.push(b'\n'),
        6 => trace.truncate(random.place(trace.len())),
        _ => {}
    }
    Draft { kind: "wrong text", trace, latencies: table }
}

/// Descriptors, and what is nearly one.
const DESCRIPTORS: [&[u8]; 8] = [b"2", b"5", b"3", b"02", b"\"%d\"", b"\"%d%d\"", b"\"%d%lf\"", b"\"%d%ld\""];

fn spoil_line(random: &mut Random, line: &mut Vec<u8>) {
    const BYTES: &[u8] = b"0123456789-. \n\r\tx\"+e\x00\xff/:";
    if line.is_empty() {
        line.push(random.pick(BYTES));
        return;
    }
    let mut fields: Vec<Vec<u8>> = line.split(|&byte| byte == b' ').map(<[u8]>::to_vec).collect();
    let place = random.place(fields.len());
    match random.below(12) {
        0 => drop(fields.remove(place)),
        1 => fields.insert(place, Vec::new()),
        2 => fields.push(random.pick(&[&b""[..], b"0", b"2", b"x"]).to_vec()),
        3 => fields.truncate(place),
        4 => fields[place].insert(0, random.pick(b"0-+ ")),
        5 => fields[place].push(random.pick(b"0.9 \r")),
        6 => {
            let spoiled = random.place(fields.len());
            fields.swap(place, spoiled);
        }
        7 if fields.len() > 5 => {
            const COUNTS: [&[u8]; 12] = [
                b"0", b"1", b"2", b"3", b"4", b"16", b"17", b"999", b"1000", b"1000000000", b"0000000003",
                b"4294967299",
            ];
            fields[5] = random.pick(&COUNTS).to_vec();
        }
        8 if fields.len() > 6 => fields[6] = random.pick(&DESCRIPTORS).to_vec(),
        9 if fields.len() > 2 => {
            fields[2] =
                random.pick(&[&b"-0.000000"[..], b"00.000001", b"1.00000", b"1", b"-.000001"]).to_vec();
        }
        _ => {
            // A byte changed, put in or left out, wherever it falls.
            let place = random.place(line.len());
            match random.below(3) {
                0 => line[place] = random.pick(BYTES),
                1 => line.insert(place, random.pick(BYTES)),
                _ => drop(line.remove(place)),
            }
            return;
        }
    }
    *line = fields.join(&b' ');
}
