//! One stroke off: traces that are good but for one byte, which is replaced, left out, put in or doubled.
//!
//! A reader that goes quickly over good lines is wrong, if anywhere, in lines that are nearly good. So the
//! byte falls at every kind of place and in fields of every width, in a line with many good ones around it
//! or at either end of the trace, where such a reader may have to stop.

use super::random::Random;
use super::record::{Data, RECEIVES, Record, SENDS, STATISTICS, any_data, any_local, any_time, any_unlisted};
use super::run::any_run;
use super::{Draft, table};
use crate::{MAX_TIME, PROCESSORS, form};

/// What the tally calls these traces.
pub const KIND: &str = "stroke";

/// The longest six fields, each with the byte behind it. With so many bytes ahead a reader need not look for
/// the end of the trace before it is through them.
pub const LONGEST_START: usize = 5 * "-999999999 ".len() + "-999999999.999999 ".len();

/// Bytes that might be taken for a digit, for the point, or for a space or LF: those next to it, those that
/// may stand nearby, those used for it elsewhere, and the same with its highest bit set.
const LIKE_DIGIT: &[u8] = b"//::-. \xb0\xb9\xff";
const LIKE_POINT: &[u8] = b",,-/: 0\t\0\xae";
const LIKE_SPACE: &[u8] = b"\t\r\n\0-.019\xa0";

/// Those that might be taken for one of a quoted descriptor.
const LIKE_QUOTED: &[u8] = b"\"'%%dlfDLFsiu\xa2";

/// Such bytes for any place.
const ODD: &[u8] = b"-./:,+ \t\r\n\0x\x80\xa0\xad\xae\xb0\xb9\xff";

const DIGITS: &[u8] = b"0123456789";

/// A good trace with a stroke in one line.
pub(super) fn trace(random: &mut Random) -> Draft {
    let latencies = table(random);
    let mut lines = good_lines(random, &latencies);
    let place = place_to_strike(random, &lines);
    if random.chance(15) {
        let record = if random.chance(30) { off_machine(random) } else { wide_unlisted(random) };
        lines.insert(place, line_of(&record));
    }
    let good = lines[place].clone();
    // A digit may have become what it was.
    while lines[place] == good {
        strike(random, &mut lines[place]);
    }
    if random.chance(10) {
        lines.truncate(place + 1);
        let struck = lines[place].len();
        lines.extend(end_behind(random, struck));
    }
    Draft { kind: KIND, trace: lines.concat(), latencies }
}

/// Lines of good records, each with its LF. Now and then they are so few that all are near the end.
fn good_lines(random: &mut Random, latencies: &[u32]) -> Vec<Vec<u8>> {
    let mut records = if random.chance(40) { any_run(random, latencies, 0) } else { wide_run(random) };
    if random.chance(10) {
        records.truncate(random.place(3) + 1);
    }
    if records.is_empty() {
        records.push(Record::local(-2, 0, 0, 0));
    }
    records.iter().map(line_of).collect()
}

fn line_of(record: &Record) -> Vec<u8> {
    let mut line = record.text();
    line.push(b'\n');
    line
}

/// The first line, one of the last four, one with times among its data, which are few, or any.
fn place_to_strike(random: &mut Random, lines: &[Vec<u8>]) -> usize {
    let points = |line: &[u8]| line.iter().filter(|&&byte| byte == b'.').count();
    let with_times: Vec<usize> = (0..lines.len()).filter(|&place| points(&lines[place]) > 1).collect();
    match random.below(10) {
        0 => 0,
        1 => lines.len() - 1 - random.place(lines.len().min(4)),
        2..5 if !with_times.is_empty() => random.pick(&with_times),
        _ => random.place(lines.len()),
    }
}

/// Records with numbers of every width. Their times never fall from line to line.
fn wide_run(random: &mut Random) -> Vec<Record> {
    let start = any_time(random);
    let mut time = random.pick(&[0, -1, -MAX_TIME, start, start]);
    // Strict reading goes no further than the first of these.
    let unlisted = random.chance(30);
    let mut records = Vec::new();
    for _ in 0..random.pick(&[2, 8, 12, 20, 30, 60]) {
        time = (time + random.pick(&[0, 0, 1, 10, 999_999, 123_456_789])).min(MAX_TIME);
        match random.below(8) {
            0 | 1 => records.extend(message(random, time)),
            2 => {
                let processor = random.between(0, 63);
                records.push(any_local(random, time, processor));
            }
            3 if random.chance(70) => records.push(statistic(random, time)),
            3 | 4 if unlisted => records.push(wide_unlisted(random)),
            _ => records.push(user_event(random, time)),
        }
    }
    records
}

/// A whole number of any width, often of nine digits: one more is too many.
fn wide(random: &mut Random) -> i64 {
    let digits = random.pick(&[1, 1, 2, 3, 4, 5, 6, 7, 8, 9, 9, 9, 9, 9, 9]);
    let highest = 10_i64.pow(digits) - 1;
    let size = random.between(highest / 10 + 1, highest);
    if random.chance(50) { -size } else { size }
}

fn user_event(random: &mut Random, time: i64) -> Record {
    let event = if random.chance(50) { wide(random).abs() } else { 0 };
    let count = random.between(1, 5);
    let data = match random.below(8) {
        0..2 => Data::Wholes((0..count).map(|_| wide(random)).collect()),
        2..6 => Data::Times((0..count).map(|_| time_about_zero_or_any(random)).collect()),
        _ => any_data(random),
    };
    Record { data, ..Record::local(random.pick(&[-2, -3, -4, 0]), event, time, random.between(0, 63)) }
}

/// Statistics of events of any width, which are not compared.
fn statistic(random: &mut Random, time: i64) -> Record {
    let record_type = random.pick(&STATISTICS);
    let pair = |random: &mut Random| {
        let number = if record_type == -101 { time_about_zero_or_any(random) } else { wide(random) };
        (wide(random), number)
    };
    let data = Data::Pairs((0..random.between(1, 4)).map(|_| pair(random)).collect());
    let event = random.pick(&[0, -2, -11, -62, -999_999_999]);
    Record { data, ..Record::local(record_type, event, time, random.between(0, 63)) }
}

/// Zero and the time before it are one byte off the zero that is bad.
fn time_about_zero_or_any(random: &mut Random) -> i64 {
    let any = any_time(random);
    random.pick(&[0, -1, any, any, any, any])
}

/// A send, and its receive in the next line.
fn message(random: &mut Random, time: i64) -> [Record; 2] {
    let [from, to] = [random.place(PROCESSORS) as i64, random.place(PROCESSORS) as i64];
    let (length, kind) = (wide(random).abs(), wide(random));
    [
        Record::send(random.pick(&SENDS), time, from, length, kind, to),
        Record::receive(random.pick(&RECEIVES), time, to, length, kind, from),
    ]
}

/// A line that is passed over, with fields of any width: in a listed one those of the record type, the
/// processor and the process are short.
fn wide_unlisted(random: &mut Random) -> Record {
    let record_type = match wide(random) {
        -4..=-2 | -103..=-101 => -5,
        unlisted => unlisted,
    };
    Record {
        record_type,
        event: wide(random),
        processor: wide(random),
        process: wide(random),
        ..any_unlisted(random)
    }
}

/// A listed record of a processor or process that there is not, good in its form alone: a tenth digit is
/// refused for another reason.
fn off_machine(random: &mut Random) -> Record {
    let time = any_time(random);
    let processor = wide(random);
    let process = if random.chance(50) { wide(random) } else { 0 };
    Record { processor, process, ..user_event(random, time) }
}

/// A last line that is passed over, so long that a line of this length before it begins [`LONGEST_START`]
/// bytes before the end, or one or two more or less. None if there is no room for it.
fn end_behind(random: &mut Random, struck: usize) -> Option<Vec<u8>> {
    let mut line = b"-5 0 0.000000 0 0 1 x".to_vec();
    let length = (LONGEST_START - 2 + random.place(5)).checked_sub(struck + 1)?;
    if length < line.len() {
        return None;
    }
    line.resize(length, b'x');
    line.push(b'\n');
    Some(line)
}

/// Where a field stands in its line. At its end is a space or the LF.
#[derive(Clone, Copy)]
struct Field {
    start: usize,
    end: usize,
}

fn fields_of(line: &[u8]) -> Vec<Field> {
    let mut start = 0;
    let ends = (0..line.len()).filter(|&place| matches!(line[place], b' ' | b'\n'));
    ends.map(|end| Field { start: std::mem::replace(&mut start, end + 1), end }).collect()
}

/// Those fields that have a form.
fn of_form(line: &[u8], fields: &[Field], form: fn(&[u8]) -> Option<i64>) -> Vec<Field> {
    fields.iter().copied().filter(|field| form(&line[field.start..field.end]).is_some()).collect()
}

/// One byte of a good line becomes another, goes or comes.
fn strike(random: &mut Random, line: &mut Vec<u8>) {
    let fields = fields_of(line);
    let [times, wholes] = [form::time, form::whole].map(|form| of_form(line, &fields, form));
    // The timestamp is the first of the times. Data may be others.
    let time = if random.chance(25) { times[0] } else { random.pick(&times) };
    let point = time.end - 7;
    let (whole, any) = (random.pick(&wholes), random.pick(&fields));
    let quoted = fields.get(6).copied().filter(|field| line[field.start] == b'"');
    if let Some(quoted) = quoted
        && random.chance(25)
    {
        return in_quoted(random, line, quoted);
    }
    match random.below(32) {
        0..5 => at_point(random, line, point),
        5..9 => in_fraction(random, line, point),
        9..13 => in_number(random, line, Field { end: point, ..time }),
        13..20 => in_number(random, line, whole),
        20..22 => behind_field(random, line, time.end),
        22..26 => behind_field(random, line, any.end),
        26..28 => at_end(random, line),
        28 => in_count(random, line, fields[5]),
        29 if fields.len() > 6 => in_descriptor(random, line, fields[6]),
        _ => anywhere(random, line),
    }
}

/// Mostly another byte for the point.
fn at_point(random: &mut Random, line: &mut Vec<u8>, point: usize) {
    match random.below(10) {
        0 => drop(line.remove(point)),
        1 => line.insert(point, b'.'),
        _ => line[point] = other(random, b'.', LIKE_POINT),
    }
}

/// Five digits behind the point, seven, or one that is none.
fn in_fraction(random: &mut Random, line: &mut Vec<u8>, point: usize) {
    let place = point + 1 + random.place(6);
    match random.below(6) {
        0 => drop(line.remove(place)),
        1 => line.insert(place + random.place(2), random.pick(DIGITS)),
        // It makes a bad zero of the time before zero.
        2 => line[place] = b'0',
        _ => line[place] = other(random, line[place], LIKE_DIGIT),
    }
}

/// A zero or a minus where none may be, a tenth digit, one too few, or one that is none.
fn in_number(random: &mut Random, line: &mut Vec<u8>, Field { start, end }: Field) {
    let first = start + usize::from(line[start] == b'-');
    let digit = first + random.place(end - first);
    let beside = digit + random.place(2);
    match random.below(15) {
        0..4 if line[start] == b'0' => line.insert(start, b'-'),
        0..4 if end - first == 9 => line.insert(beside, random.pick(DIGITS)),
        0..5 => line.insert(beside, random.pick(b"0-")),
        5 => line.insert(first, b'0'),
        6 => line[first] = b'0',
        7 => line.insert(start, b'-'),
        8 => line[digit] = b'-',
        9..11 => line[digit] = random.pick(b"/:"),
        11 => line.insert(beside, random.pick(DIGITS)),
        12 => drop(line.remove(start + random.place(end - start))),
        _ => line[digit] = other(random, line[digit], LIKE_DIGIT),
    }
}

/// The space behind a field, or the LF, twice, not at all, with something before it, or as another byte.
fn behind_field(random: &mut Random, line: &mut Vec<u8>, end: usize) {
    match random.below(6) {
        0 => line.insert(end, line[end]),
        1 => drop(line.remove(end)),
        2 => line.insert(end, other(random, line[end], LIKE_SPACE)),
        _ => line[end] = other(random, line[end], LIKE_SPACE),
    }
}

/// Something between the last field and the LF, or no LF.
fn at_end(random: &mut Random, line: &mut Vec<u8>) {
    let end = line.len() - 1;
    match random.below(3) {
        0 => line.insert(end, random.pick(b" \r\t\0")),
        _ => behind_field(random, line, end),
    }
}

/// A datum more than there are, or one less, or about ten times as many.
fn in_count(random: &mut Random, line: &mut Vec<u8>, count: Field) {
    let last = count.end - 1;
    match random.below(3) {
        0 => line[last] += 1,
        1 => line[last] -= 1,
        _ => line.insert(count.end, random.pick(DIGITS)),
    }
}

/// Another descriptor, or one of two digits. An unlisted line may have anything there.
fn in_descriptor(random: &mut Random, line: &mut Vec<u8>, descriptor: Field) {
    match random.below(4) {
        0 => line.insert(descriptor.start + random.place(2), random.pick(DIGITS)),
        1 => line[descriptor.start] = other(random, line[descriptor.start], LIKE_DIGIT),
        _ => line[descriptor.start] = random.pick(DIGITS),
    }
}

/// Another byte in a quoted descriptor, one too many or one too few.
fn in_quoted(random: &mut Random, line: &mut Vec<u8>, Field { start, end }: Field) {
    let place = start + random.place(end - start);
    match random.below(5) {
        0 => drop(line.remove(place)),
        1 => line.insert(place, line[place]),
        2 => line.insert(place, random.pick(LIKE_QUOTED)),
        _ => line[place] = other(random, line[place], LIKE_QUOTED),
    }
}

/// Any stroke, wherever it falls, the line's first byte more often than another.
fn anywhere(random: &mut Random, line: &mut Vec<u8>) {
    let place = if random.chance(20) { 0 } else { random.place(line.len()) };
    match random.below(4) {
        0 => drop(line.remove(place)),
        1 => line.insert(place, line[place]),
        2 => line.insert(place, other(random, line[place], ODD)),
        _ => line[place] = other(random, line[place], ODD),
    }
}

/// Another byte: most often one like what is due at its place, else one bit off, the next or the one before,
/// a digit, an odd one, or any.
fn other(random: &mut Random, byte: u8, like: &[u8]) -> u8 {
    let other = match random.below(10) {
        0 => byte ^ (1 << random.below(8)),
        1 => byte.wrapping_add(random.pick(&[1, u8::MAX])),
        2 => random.pick(DIGITS),
        3 => random.below(256) as u8,
        4 => random.pick(ODD),
        _ => random.pick(like),
    };
    if other == byte { !byte } else { other }
}
