//! A record before it is text, so that runs and damages can speak of what it means.

use super::random::Random;
use crate::MAX_TIME;
use crate::form::write_time;
use crate::line::Told;

/// The events whose entry is a send.
pub const SENDS: [i64; 2] = [-21, -27];
/// The events whose exit is a receive.
pub const RECEIVES: [i64; 5] = [-51, -52, -58, -60, -61];
/// All that are listed of the events of messages.
pub const MESSAGE_EVENTS: [i64; 13] = [-21, -27, -28, -29, -30, -31, -51, -52, -57, -58, -59, -60, -61];

#[derive(Clone, Debug)]
pub struct Record {
    pub record_type: i64,
    pub event: i64,
    pub time: i64,
    pub processor: i64,
    pub process: i64,
    pub data: Data,
}

#[derive(Clone, Debug)]
pub enum Data {
    None,
    Wholes(Vec<i64>),
    Times(Vec<i64>),
    /// Of a statistics record: events, and what is told of each.
    Pairs(Vec<(i64, i64)>),
    /// The whole end of an unlisted line: a data count and the bytes after it.
    Free(i64, Vec<u8>),
}

impl Record {
    pub fn local(record_type: i64, event: i64, time: i64, processor: i64) -> Record {
        Record { record_type, event, time, processor, process: 0, data: Data::None }
    }

    pub fn send(event: i64, time: i64, processor: i64, length: i64, kind: i64, to: i64) -> Record {
        let data = Data::Wholes(vec![length, kind, to]);
        Record { data, ..Record::local(-3, event, time, processor) }
    }

    pub fn receive(event: i64, time: i64, processor: i64, length: i64, kind: i64, from: i64) -> Record {
        let data = Data::Wholes(vec![length, kind, from]);
        Record { data, ..Record::local(-4, event, time, processor) }
    }

    pub fn is_send(&self) -> bool {
        self.record_type == -3 && SENDS.contains(&self.event)
    }

    pub fn is_receive(&self) -> bool {
        self.record_type == -4 && RECEIVES.contains(&self.event)
    }

    pub fn is_message(&self) -> bool {
        self.is_send() || self.is_receive()
    }

    /// A message that is begun, or that finishes later.
    pub fn is_nonblocking(&self) -> bool {
        self.is_message() && !matches!(self.event, -21 | -51 | -52)
    }

    /// The record's line without its LF.
    pub fn text(&self) -> Vec<u8> {
        let mut text = format!("{} {} ", self.record_type, self.event).into_bytes();
        write_time(self.time, &mut text);
        text.extend(format!(" {} {} ", self.processor, self.process).bytes());
        match &self.data {
            Data::None => text.push(b'0'),
            Data::Wholes(values) => {
                text.extend(format!("{} 2", values.len()).bytes());
                for value in values {
                    text.extend(format!(" {value}").bytes());
                }
            }
            Data::Times(values) => {
                text.extend(format!("{} 5", values.len()).bytes());
                for &value in values {
                    text.push(b' ');
                    write_time(value, &mut text);
                }
            }
            Data::Pairs(pairs) => {
                let told = Told::by(self.record_type).unwrap_or(Told::Counts);
                text.extend(format!("{} {}", pairs.len(), told.descriptor()).bytes());
                for &(event, number) in pairs {
                    text.extend(format!(" {event} ").bytes());
                    match told {
                        Told::Times => write_time(number, &mut text),
                        Told::Counts | Told::Volumes => text.extend(number.to_string().bytes()),
                    }
                }
            }
            Data::Free(count, end) => {
                text.extend(count.to_string().bytes());
                text.extend(end);
            }
        }
        text
    }
}

/// Lines put together, each with its LF.
pub fn joined(lines: &[Vec<u8>]) -> Vec<u8> {
    let mut trace = Vec::new();
    for line in lines {
        trace.extend(line);
        trace.push(b'\n');
    }
    trace
}

pub fn trace_of(records: &[Record]) -> Vec<u8> {
    let lines: Vec<Vec<u8>> = records.iter().map(Record::text).collect();
    joined(&lines)
}

/// A few good lines to stand behind any others: a reader that goes quickly where the end of the trace is far
/// goes so over those. No others are of this processor, so that no time is below the last.
pub fn good_lines_behind(random: &mut Random) -> Vec<Vec<u8>> {
    let count = random.between(3, 6);
    (0..count).map(|place| Record::local(0, place, place, 10).text()).collect()
}

/// The record types of statistics.
pub const STATISTICS: [i64; 3] = [-101, -102, -103];

/// A statistics record whose event field is not -1, so that nothing that it tells is compared.
pub fn any_uncompared(random: &mut Random, time: i64, processor: i64) -> Record {
    let record_type = random.pick(&STATISTICS);
    let whole = any_whole(random);
    let event = random.pick(&[0, 1, -2, -10, -11, -21, -52, -62, -101, -1001, whole.min(-2)]);
    let count = random.pick(&[0, 1, 1, 2, 3, 16]);
    Record {
        data: any_pairs(random, record_type, count),
        ..Record::local(record_type, event, time, processor)
    }
}

/// So many pairs of any numbers.
pub fn any_pairs(random: &mut Random, record_type: i64, count: usize) -> Data {
    let pair = |random: &mut Random| {
        let event = any_whole(random);
        let number = if record_type == -101 { any_time(random) } else { any_whole(random) };
        (event, number)
    };
    if count == 0 { Data::None } else { Data::Pairs((0..count).map(|_| pair(random)).collect()) }
}

/// A record of one of the listed events that is no message, or seldom statistics.
pub fn any_local(random: &mut Random, time: i64, processor: i64) -> Record {
    if random.chance(3) {
        return any_uncompared(random, time, processor);
    }
    const OTHER_EVENTS: [i64; 31] = [
        0, 1, 7, 50, 123_456, 999_999_999, -11, -12, -201, -202, -221, -251, -401, -402, -501, -502, -503,
        -601, -602, -603, -901, -902, -903, -904, -911, -912, -913, -914, 0, 1, 2,
    ];
    if random.chance(70) {
        let record_type = random.pick(&[-2, -3, -4, 0]);
        let event = random.pick(&OTHER_EVENTS);
        return Record { data: any_data(random), ..Record::local(record_type, event, time, processor) };
    }
    let event = random.pick(&MESSAGE_EVENTS);
    let record_type = match event {
        _ if SENDS.contains(&event) => random.pick(&[-2, -4, 0]),
        _ if RECEIVES.contains(&event) => random.pick(&[-2, -3, 0]),
        _ => random.pick(&[-2, -3, -4, 0]),
    };
    // Often what would be a message's, so that who takes it for one goes wrong.
    let data = if random.chance(50) { message_data(random) } else { any_data(random) };
    Record { data, ..Record::local(record_type, event, time, processor) }
}

/// Length, type and processor, and now and then the process that the report has behind them.
fn message_data(random: &mut Random) -> Data {
    let mut values = vec![random.pick(&[0, 1, 8, 8]), random.between(0, 2), random.between(0, 3)];
    if random.chance(25) {
        values.push(0);
    }
    Data::Wholes(values)
}

pub fn any_data(random: &mut Random) -> Data {
    let count = match random.below(10) {
        0..6 => return Data::None,
        6..9 => random.between(1, 4),
        _ => random.between(1, 16),
    };
    if random.chance(60) {
        Data::Wholes((0..count).map(|_| any_whole(random)).collect())
    } else {
        Data::Times((0..count).map(|_| any_time(random)).collect())
    }
}

pub fn any_whole(random: &mut Random) -> i64 {
    match random.below(4) {
        0 => random.between(-3, 3),
        1 => random.pick(&[999_999_999, -999_999_999, 0, -1, 10, 100]),
        _ => random.between(-999_999_999, 999_999_999),
    }
}

pub fn any_time(random: &mut Random) -> i64 {
    match random.below(5) {
        0 => random.between(-3, 3),
        1 => random.pick(&[MAX_TIME, -MAX_TIME, 0, -1, 1, 999_999, 1_000_000, -1_000_000]),
        2 => random.between(-5_000_000, 5_000_000),
        _ => random.between(-MAX_TIME, MAX_TIME),
    }
}

/// A line that lenient reading passes over: an unlisted record type, or an unlisted event.
pub fn any_unlisted(random: &mut Random) -> Record {
    let time = any_time(random);
    let processor = random.pick(&[0, 1, 5, 63, 64, -1, 32_767, 999_999_999, -999_999_999]);
    let mut record = if random.chance(50) {
        let record_type = random.pick(&[-1, -5, 1, 2, -100, -104, -201, 999_999_999, -999_999_999]);
        Record::local(record_type, random.between(-1000, 10), time, processor)
    } else {
        let event = random.pick(&[
            -1, -10, -13, -14, -20, -81, -200, -203, -220, -222, -250, -252, -400, -403, -500, -504, -600,
            -604, -900, -905, -910, -915, -1001, -999_999_999,
        ]);
        Record::local(random.pick(&[-2, -3, -4, 0]), event, time, processor)
    };
    record.process = random.pick(&[0, 0, 1, -1, 999_999_999]);
    if random.chance(50) {
        const ENDS: [&[u8]; 8] =
            [b" x", b"  ", b" \"%d%lf\" -11 0.000098", b" 2 1", b" \r", b" a  b ", b" \xff\x00", b" -21 8\t"];
        let count = random.pick(&[1, 2, 7, 16, 17, 999]);
        record.data = Data::Free(count, random.pick(&ENDS).to_vec());
    }
    record
}
