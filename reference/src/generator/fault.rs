//! One line that is bad in a field, or in several, or that has too few fields or too many: the column tells
//! which of its faults decided.

use super::random::Random;
use super::record::{
    Data, RECEIVES, Record, SENDS, STATISTICS, any_local, any_pairs, any_time, any_unlisted,
};
use super::record::{any_whole, good_lines_behind, joined};
use super::{Draft, flat_table};

/// A field as text.
type Field = Vec<u8>;

/// Good lines on either side of such a line, or none. Now and then it is the last one and has no LF.
pub fn lines(random: &mut Random) -> Draft {
    let before = random.pick(&[0, 0, 1, 3]);
    let mut lines: Vec<Vec<u8>> = (0..before).map(|place| any_local(random, place, 11).text()).collect();
    let fields = fields(random);
    let unended = random.chance(10);
    lines.push(if unended { cut_off(random, fields) } else { fields.join(&b' ') });
    if !unended && random.chance(70) {
        lines.extend(good_lines_behind(random));
    }
    let mut trace = joined(&lines);
    if unended {
        trace.pop();
    }
    Draft { kind: "fault", trace, latencies: flat_table(0) }
}

/// The fields of a line that is bad, or could be.
fn fields(random: &mut Random) -> Vec<Field> {
    let record = match random.below(20) {
        0..5 => message(random),
        5..7 => any_unlisted(random),
        7..16 => statistic(random),
        _ => local(random),
    };
    let mut fields: Vec<Field> = record.text().split(|&byte| byte == b' ').map(<[u8]>::to_vec).collect();
    let length = fields.len();
    match random.below(20) {
        0..8 => {
            fields.truncate(any_place(random, length).max(1));
            // A space behind the last one makes one more, which is empty.
            fields.extend(random.chance(20).then(Field::new));
        }
        8..11 => fields.push(random.pick(&[&b""[..], b"7", b"x", b"0.000007"]).to_vec()),
        11 => fields.extend([b"7".to_vec(), b"x".to_vec()]),
        _ => {}
    }
    // Too few or too many, or what a message's data lack, is often enough.
    let enough = fields.len() != length || record.is_message();
    for _ in 0..random.pick(if enough { &[0, 0, 0, 1, 2] } else { &[1, 1, 1, 2, 3] }) {
        let place = any_place(random, fields.len());
        fields[place] = spoiled(random, place, &fields[place]);
    }
    fields
}

/// The place of a field: mostly the descriptor's or that of a datum, where there are any.
fn any_place(random: &mut Random, length: usize) -> usize {
    let first = if random.chance(70) { length.min(7) - 1 } else { 0 };
    first + random.place(length - first)
}

/// A line that ends in a field, at any byte of it: mostly in one of the first eight.
fn cut_off(random: &mut Random, mut fields: Vec<Field>) -> Vec<u8> {
    if random.chance(70) {
        fields.truncate(8);
    }
    fields.truncate(random.place(fields.len()) + 1);
    if let Some(last) = fields.last_mut() {
        last.truncate(random.place(last.len() + 1));
    }
    fields.join(&b' ')
}

/// A record with sixteen data more often than not, so that each of them comes up.
fn local(random: &mut Random) -> Record {
    let count = if random.chance(80) { 16 } else { random.below(17) };
    let data = match random.below(3) {
        _ if count == 0 => Data::None,
        0 => Data::Times((0..count).map(|_| any_time(random)).collect()),
        _ => Data::Wholes((0..count).map(|_| any_whole(random)).collect()),
    };
    let (time, processor) = (any_time(random), random.between(0, 9));
    let event = random.pick(&[0, 7, 999_999_999, -11, -904]);
    Record { data, ..Record::local(random.pick(&[-2, -3, -4, 0]), event, time, processor) }
}

/// A statistics record, with sixteen pairs more often than not.
fn statistic(random: &mut Random) -> Record {
    let record_type = random.pick(&STATISTICS);
    let count = if random.chance(90) { 16 } else { random.place(17) };
    let event = random.pick(&[-1, 0, -62, -999_999_999]);
    let (time, processor) = (any_time(random), random.between(0, 9));
    Record {
        data: any_pairs(random, record_type, count),
        ..Record::local(record_type, event, time, processor)
    }
}

/// A send or a receive, its data those of one or not: in their number, their form, the length, the
/// processor, or in several of these.
fn message(random: &mut Random) -> Record {
    let (time, processor) = (any_time(random), random.between(0, 9));
    let length = random.pick(&[0, 8, -1, -999_999_999]);
    let partner = random.pick(&[0, 63, 64, -1]);
    let mut record = match random.chance(50) {
        true => Record::send(random.pick(&SENDS), time, processor, length, any_whole(random), partner),
        false => Record::receive(random.pick(&RECEIVES), time, processor, length, any_whole(random), partner),
    };
    let count = if random.chance(70) { 3 } else { random.pick(&[0, 1, 2, 4, 16]) };
    if let Data::Wholes(values) = &mut record.data {
        values.resize(count, 0);
        record.data = match random.below(4) {
            _ if count == 0 => Data::None,
            0 => Data::Times(values.clone()),
            _ => Data::Wholes(values.clone()),
        };
    }
    record
}

/// Another text for a field: one that is bad in form, or good in form and bad at its place.
fn spoiled(random: &mut Random, place: usize, good: &[u8]) -> Field {
    const BAD: [&[u8]; 10] = [b"", b"-", b"-0", b"00", b"x", b"+1", b"1000000000", b"1.0", b"\t", b"\xff\r"];
    const OTHERS: [&[&[u8]]; 7] = [
        &[b"-5", b"1", b"-101", b"-102", b"-104"],
        &[b"-1", b"-62", b"-80", b"-905"],
        &[b"-0.000000", b"1.00000", b"1"],
        &[b"64", b"-1", b"999999999"],
        &[b"1", b"-1"],
        &[b"0", b"1", b"15", b"17", b"999", b"1000", b"-1"],
        &[b"2", b"5", b"3", b"02", b"\"%d%d\"", b"\"%d%lf\"", b"\"%d%f\"", b"%d%d"],
    ];
    match random.below(3) {
        0 => random.pick(&BAD).to_vec(),
        1 => [good, &[random.pick(b"x.\t\r\x80")]].concat(),
        _ => match OTHERS.get(place) {
            Some(others) => random.pick(others).to_vec(),
            // Data of the other form, and those that no message has.
            None => random.pick(&[&b"0.000007"[..], b"7", b"-1", b"64"]).to_vec(),
        },
    }
}
