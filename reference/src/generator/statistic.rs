//! Statistics records: what the records before them say, or nearly that, or what is not compared.

use super::level::put_together;
use super::random::Random;
use super::record::{Data, Record, STATISTICS, any_time, any_whole};
use crate::line::{Standing, Told, standing};
use crate::statistics::{All, Sums, add};
use crate::{Asked, Choice, MAX_RECORDS, MAX_TIME, PROCESSORS, trace};

/// What a whole number can be.
const HIGHEST: i64 = 999_999_999;

/// What is asked with the statistics compared or not, and the trace with some put into it.
pub fn asked(random: &mut Random, asked: Asked, trace: Vec<u8>) -> (Asked, Vec<u8>) {
    let on = random.chance(25);
    let asked = Asked { statistics: u32::from(on), ..asked };
    let told = if random.chance(if on { 80 } else { 5 }) {
        with_statistics(random, asked.choice, &trace)
    } else {
        None
    };
    (asked, told.unwrap_or(trace))
}

/// The trace with statistics of processors that have listed records, each behind one of these and at its
/// time. None if the trace is refused by a line, or would be.
fn with_statistics(random: &mut Random, choice: u32, trace: &[u8]) -> Option<Vec<u8>> {
    let reading = if choice == 1 { Choice::Strict } else { Choice::Lenient };
    let listed = trace::lines(trace, reading).ok()?.records;
    let lines: Vec<&[u8]> = trace.split_inclusive(|&byte| byte == b'\n').collect();
    let many = random.pick(&[1, 1, 2, 3, 6, 20]);
    if listed.is_empty() || listed.len() + many > MAX_RECORDS {
        return None;
    }
    // Most traces tell nothing wrong, and others little.
    let wrong = random.pick(&[0, 0, 0, 5, 30]);
    let behind: Vec<usize> = (0..many).map(|_| any_place(random, listed.len())).collect();
    let mut added: Vec<Vec<Record>> = vec![Vec::new(); lines.len() + 1];
    let mut all = All::new();
    for (place, record) in listed.iter().enumerate() {
        add(&mut all, record);
        for _ in behind.iter().filter(|&&behind| behind == place) {
            let statistics = statistics(random, &all, record.processor, wrong);
            added[record.line as usize].push(Record { time: record.time, ..statistics });
        }
    }
    Some(put_together(&lines, &added))
}

/// Most often near the end, where the most can be told.
fn any_place(random: &mut Random, count: usize) -> usize {
    let last = count.min(4);
    if random.chance(50) { count - 1 - random.place(last) } else { random.place(count) }
}

/// What one processor tells, each number wrong in so many of a hundred. Its time comes later.
fn statistics(random: &mut Random, all: &All, processor: usize, wrong: u64) -> Record {
    let record_type = random.pick(&STATISTICS);
    let told = Told::by(record_type).unwrap_or(Told::Counts);
    let mut own: Vec<i64> = all.keys().filter(|key| key.0 == processor).map(|key| key.1).collect();
    own.sort();
    let count = random.pick(&[0, 1, 1, 2, 3, 5, 16]);
    let pairs: Vec<(i64, i64)> = (0..count)
        .map(|_| {
            let event =
                if own.is_empty() || random.chance(25) { any_event(random) } else { random.pick(&own) };
            let sums = all.get(&(processor, event)).copied().unwrap_or_default();
            let number = if random.chance(wrong) {
                let other = random.place(PROCESSORS);
                let others = all.get(&(other, event)).copied().unwrap_or_default();
                nearly(random, told, event, sums, others)
            } else {
                right(random, told, event, sums)
            };
            (event, number)
        })
        .collect();
    let data = if pairs.is_empty() { Data::None } else { Data::Pairs(pairs) };
    // With another event field whatever is told is good.
    let event = if random.chance(90) { -1 } else { random.pick(&[0, 1, -2, -21, -101, -62]) };
    Record { data, ..Record::local(record_type, event, 0, processor as i64) }
}

/// Events of which there may be no record, or can be none.
fn any_event(random: &mut Random) -> i64 {
    let whole = any_whole(random);
    random.pick(&[
        0, 1, -21, -51, -52, -27, -58, -60, -61, -29, -59, -904, -1, -2, -10, -13, -22, -62, -80, -1001,
        -2001, whole,
    ])
}

/// What the records say, as far as it is compared, or that it was not measured.
fn right(random: &mut Random, told: Told, event: i64, sums: Sums) -> i64 {
    let due = match told {
        _ if standing(event) != Standing::Listed => None,
        Told::Times => {
            let entries = sums.entries as i64;
            let any = random.between(-entries, entries);
            let off = random.pick(&[0, entries, -entries, any]);
            i64::try_from(sums.spent).ok().map(|spent| spent + off)
        }
        Told::Counts => Some((sums.entries + sums.marks) as i64),
        Told::Volumes => sums.volume(event),
    };
    let (highest, unmeasured) = limits(told);
    match due {
        Some(due) if due.abs() <= highest && !sums.differ(told, event, due) && random.chance(95) => due,
        _ => {
            let any = if told == Told::Times { any_time(random) } else { any_whole(random) };
            let compared = standing(event) == Standing::Listed && sums.differ(told, event, any);
            if compared { unmeasured } else { any }
        }
    }
}

/// The highest number that a field holds, and the one for what was not measured.
fn limits(told: Told) -> (i64, i64) {
    match told {
        Told::Times => (MAX_TIME, -1_000_000),
        Told::Counts | Told::Volumes => (HIGHEST, -1),
    }
}

/// What one tells who counts other records, or is off by a little.
fn nearly(random: &mut Random, told: Told, event: i64, sums: Sums, others: Sums) -> i64 {
    let [entries, exits, marks] = [sums.entries, sums.exits, sums.marks].map(|count| count as i64);
    let [spent, elsewhere] =
        [sums, others].map(|sums| sums.spent.clamp(-i128::from(MAX_TIME), i128::from(MAX_TIME)) as i64);
    let number = match told {
        Told::Times => random.pick(&[
            spent + entries + 1,
            spent - entries - 1,
            spent + 2 * entries,
            -spent,
            1,
            -1,
            -999_999,
            -1_000_001,
            // Good by their low bits.
            spent + (1 << 32),
            spent - (1 << 32),
            elsewhere,
        ]),
        Told::Counts => random.pick(&[
            entries + marks + 1,
            entries + marks - 1,
            entries,
            marks,
            entries + exits,
            entries + exits + marks,
            -2,
            -entries - marks,
            entries + marks + (1 << 8),
            entries + marks + (1 << 16),
            (others.entries + others.marks) as i64,
        ]),
        Told::Volumes => {
            let volume = sums.volume(event).unwrap_or(sums.sent);
            let other = others.volume(event).unwrap_or_default();
            random.pick(&[
                volume + 1,
                volume - 1,
                sums.sent,
                sums.received,
                volume + other,
                other,
                -2,
                entries,
            ])
        }
    };
    let (highest, _) = limits(told);
    number.clamp(-highest, highest)
}
