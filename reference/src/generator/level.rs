//! Tracing levels: what is expected, marks that tell it, others that do not, and records that only look
//! like such marks.

use super::random::Random;
use super::record::{Data, Record};
use crate::levels::Levels;
use crate::{Asked, Choice, MAX_RECORDS, PROCESSORS, trace};

/// The levels that marks tell most often.
const ONES: Levels = Levels { picl: 1, user: 1, trace: 1 };

/// What a field can hold.
const HIGHEST: i64 = 999_999_999;

/// What is asked under a choice, and the trace with marks put into it where levels are expected. Those
/// that are off are any numbers.
pub fn asked(random: &mut Random, choice: u32, trace: Vec<u8>) -> (Asked, Vec<u8>) {
    let told = any_levels(random);
    let expected = if random.chance(12) { beyond_fields(random, told) } else { told };
    if random.chance(85) {
        return (Asked { levels: 0, ..Asked::expecting(choice, expected) }, trace);
    }
    let marked = if random.chance(90) { with_marks(random, choice, &trace, told) } else { None };
    (Asked::expecting(choice, expected), marked.unwrap_or(trace))
}

fn any_levels(random: &mut Random) -> Levels {
    if random.chance(40) {
        return ONES;
    }
    let numbers = random.pick(&[&[0, 1][..], &[-1, 0, 1, 2, 4], &[HIGHEST, -HIGHEST, HIGHEST - 1, 0]]);
    Levels { picl: random.pick(numbers), user: random.pick(numbers), trace: random.pick(numbers) }
}

/// One of the three is a number that no field holds, and often one that differs from what marks tell
/// only in its high bits.
fn beyond_fields(random: &mut Random, mut levels: Levels) -> Levels {
    let level = one_of(random, &mut levels);
    *level = match random.below(4) {
        0 => random.pick(&[i64::MAX, i64::MIN, HIGHEST + 1, -HIGHEST - 1, 1 << 30, i64::MAX - 1]),
        _ => level.wrapping_add(random.pick(&[1 << 31, 1 << 32, 1 << 33, 1 << 62, i64::MIN])),
    };
    if random.chance(50) {
        *level = level.wrapping_neg();
    }
    levels
}

fn one_of<'a>(random: &mut Random, levels: &'a mut Levels) -> &'a mut i64 {
    let Levels { picl, user, trace } = levels;
    match random.below(3) {
        0 => picl,
        1 => user,
        _ => trace,
    }
}

/// The trace with records of -904 of each processor that has listed records, and now and then of one that
/// has none. None if the trace is refused by a line, or would be.
fn with_marks(random: &mut Random, choice: u32, trace: &[u8], told: Levels) -> Option<Vec<u8>> {
    let reading = if choice == 1 { Choice::Strict } else { Choice::Lenient };
    let listed = trace::lines(trace, reading).ok()?.records;
    let lines: Vec<&[u8]> = trace.split_inclusive(|&byte| byte == b'\n').collect();
    let mut added: Vec<Vec<Record>> = vec![Vec::new(); lines.len() + 1];
    // Of a trace with many processors one that is wrong is enough.
    let wrong = random.pick(&[0, 0, 3, 10, 50]);
    let stranger = random.chance(15).then(|| random.pick(&[0, 1, 7, 63]));
    for processor in 0..PROCESSORS {
        let own: Vec<&trace::Record> = listed.iter().filter(|record| record.processor == processor).collect();
        if own.is_empty() && stranger != Some(processor) {
            continue;
        }
        let records = records_of_904(random, reading, told, wrong);
        let mut slots: Vec<usize> = records.iter().map(|_| random.place(own.len() + 1)).collect();
        slots.sort();
        for (record, slot) in records.into_iter().zip(slots) {
            let (line, time) = place_of(slot, &own).unwrap_or((lines.len(), 0));
            added[line].push(Record { time, processor: processor as i64, ..record });
        }
    }
    let count: usize = added.iter().map(Vec::len).sum();
    (listed.len() + count <= MAX_RECORDS).then(|| put_together(&lines, &added))
}

/// Behind how many lines a record goes, and its time: before the first of its processor's own records, or
/// behind another of them, and at the same time. None if there are none.
fn place_of(slot: usize, own: &[&trace::Record]) -> Option<(usize, i64)> {
    match slot {
        0 => own.first().map(|first| (first.line as usize - 1, first.time)),
        _ => own.get(slot - 1).map(|before| (before.line as usize, before.time)),
    }
}

/// The lines, and behind as many of them as its place says what is added there.
pub(super) fn put_together(lines: &[&[u8]], added: &[Vec<Record>]) -> Vec<u8> {
    let mut trace = Vec::new();
    for (place, records) in added.iter().enumerate() {
        for record in records {
            trace.extend(record.text());
            trace.push(b'\n');
        }
        trace.extend(lines.get(place).into_iter().copied().flatten());
    }
    trace
}

/// What one processor says of its levels, in file order: the last mark tells them, unless this processor
/// is one of those that are wrong.
fn records_of_904(random: &mut Random, reading: Choice, told: Levels, wrong: u64) -> Vec<Record> {
    let mut records = Vec::new();
    if random.chance(20) {
        records.push(mark(differing(random, told)));
    }
    if random.chance(wrong) {
        match random.below(3) {
            0 => records.clear(),
            1 => records.extend([mark(told), mark(differing(random, told))]),
            _ => records.push(mark(differing(random, told))),
        }
    } else {
        records.push(mark(told));
    }
    for _ in 0..random.pick(&[0, 0, 1, 2, 4]) {
        let levels = if random.chance(50) { told } else { differing(random, told) };
        let place = random.place(records.len() + 1);
        records.insert(place, look_alike(random, reading, levels));
    }
    records
}

/// A mark that counts. Its processor and its time come later.
fn mark(levels: Levels) -> Record {
    Record { data: Data::Wholes(data_of(levels)), ..Record::local(-2, -904, 0, 0) }
}

fn data_of(Levels { picl, user, trace }: Levels) -> Vec<i64> {
    vec![picl, user, trace]
}

/// Other levels, by a little; now and then they are the same again.
fn differing(random: &mut Random, mut levels: Levels) -> Levels {
    if random.chance(20) {
        let Levels { picl, user, trace } = levels;
        return random.pick(&[
            Levels { picl: trace, user, trace: picl },
            Levels { picl: user, user: trace, trace: picl },
        ]);
    }
    let level = one_of(random, &mut levels);
    *level = random.pick(&[*level + 1, *level - 1, -*level, !*level, 0]).clamp(-HIGHEST, HIGHEST);
    levels
}

/// A record that is no mark of tracing levels, or none that counts.
fn look_alike(random: &mut Random, reading: Choice, levels: Levels) -> Record {
    let three = data_of(levels);
    let mut record = mark(levels);
    match random.below(9) {
        0 => record.data = Data::None,
        1 => record.data = Data::Wholes(three[..2].to_vec()),
        2 => record.data = Data::Wholes([three, vec![0]].concat()),
        3 => record.data = Data::Times(three),
        4 => record.record_type = -3,
        5 => record.record_type = -4,
        6 => record.record_type = 0,
        // Passed over.
        7 if reading == Choice::Lenient => record.record_type = random.pick(&[-5, 2, -904]),
        8 if reading == Choice::Lenient => record.event = -905,
        _ => record.event = random.pick(&[-903, -903, -914, 904]),
    }
    record
}
