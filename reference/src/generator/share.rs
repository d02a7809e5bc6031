//! Shares of the gaps that are kept, and traces whose gaps tell one share from another.

use super::nonblocking::mix_events;
use super::random::Random;
use super::record::{Record, any_local, any_uncompared, trace_of};
use super::run::in_file_order;
use super::{Draft, table};
use crate::{MAX_SHARE, MAX_TIME};

/// No share, a half, both ends with what stands beside them, or any.
pub fn any(random: &mut Random) -> u32 {
    let any = random.up_to(MAX_SHARE);
    random
        .pick(&[0, 0, 0, 0, 1, 2, 333, 334, 500, 500, 500, 998, 999, 999, 1_000, 1_000, 1_000, any, any, any])
}

/// Shares above the highest, some of them good by their low bits.
pub fn wrong(random: &mut Random) -> u32 {
    random.pick(&[
        1_001,
        1_001,
        1_002,
        1_024,
        10_000,
        1_000_000,
        1 << 16,
        (1 << 16) + 500,
        1 << 31,
        (1 << 31) + 1_000,
        u32::MAX,
    ])
}

/// A message handed on by a few processors, each with gaps behind what it received: of a few microseconds, or
/// as long as times can be apart.
pub fn handed_on(random: &mut Random) -> Draft {
    let latencies = table(random);
    let longest = random.pick(&[3, 10, 3_000, 3_000, 1_000_000, 1_000_000_000_000, MAX_TIME, 2 * MAX_TIME]);
    let start = if longest < MAX_TIME { random.between(-3, 3) } else { -MAX_TIME };
    let later = random.pick(&[1, 5, 1_000, longest]);
    let sent = any_later(random, start, later);
    let mut records = vec![Record::send(-21, sent, 0, 8, 1, 1)];
    for here in 1..=random.between(1, 4) {
        let mut time = any_later(random, start, 3);
        records.push(Record::receive(-52, time, here, 8, 1, here - 1));
        for _ in 0..random.below(6) {
            time = any_later(random, time, longest);
            let statistics = random.chance(20);
            records.push(if statistics { any_uncompared } else { any_local }(random, time, here));
        }
        time = any_later(random, time, longest);
        records.push(Record::send(-21, time, here, 8, 1, here + 1));
    }
    if random.chance(20) {
        reach_the_end(random, &mut records, sent - start);
    }
    mix_events(random, &mut records);
    Draft { kind: "gaps", trace: trace_of(&in_file_order(random, records)), latencies }
}

/// A time later by so much at the most, and no later than times can be.
fn any_later(random: &mut Random, time: i64, longest: i64) -> i64 {
    (time + random.between(0, longest)).min(MAX_TIME)
}

/// The last record so near to the highest time that what moves it by so much brings it there, or just beyond.
fn reach_the_end(random: &mut Random, records: &mut [Record], moved: i64) {
    if let Some(last) = records.last_mut() {
        last.time = last.time.max(MAX_TIME - moved + random.between(-1, 1)).min(MAX_TIME);
    }
}
