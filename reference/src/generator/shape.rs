//! Traces of a known shape: chains, rings, neighbours, many message types on one pair.

use super::nonblocking::mix_events;
use super::random::Random;
use super::record::{Record, trace_of};
use super::{Draft, flat_table, table};
use crate::{LATENCIES, MAX_LATENCY, PROCESSORS};
use std::ops::Range;

/// One message handed on: each processor receives it and sends it to the next, all at time 0. With
/// any latency above 0 every record but the first moves, one a round.
pub fn chain(records: usize, processors: usize) -> Vec<Record> {
    let processors = processors as i64;
    (0..records as i64)
        .map(|place| {
            let here = (place + 1) / 2 % processors;
            if place % 2 == 0 {
                Record::send(-21, 0, here, 8, 1, (here + 1) % processors)
            } else {
                Record::receive(-52, 0, here, 8, 1, (here + processors - 1) % processors)
            }
        })
        .collect()
}

/// Each record so much later than the one before it on its processor, the first of which is at time 0.
pub fn spread(records: &mut [Record], gap: i64) {
    let mut shown = [0; PROCESSORS];
    for record in records {
        let clock = &mut shown[record.processor as usize];
        record.time = *clock;
        *clock += gap;
    }
}

/// Processors in a row exchange messages with both neighbours, step after step, under true clocks.
pub fn neighbours(records: usize, processors: usize, latency: i64) -> Vec<Record> {
    let last = processors as i64 - 1;
    let mut run = Vec::new();
    let mut time = 0;
    while run.len() < records {
        for here in 0..=last {
            run.extend((here > 0).then(|| Record::send(-21, time, here, 8, 1, here - 1)));
            run.extend((here < last).then(|| Record::send(-21, time + 1, here, 8, 1, here + 1)));
        }
        let arrival = time + 1 + latency;
        for here in 0..=last {
            run.extend((here > 0).then(|| Record::receive(-52, arrival, here, 8, 1, here - 1)));
            run.extend((here < last).then(|| Record::receive(-52, arrival, here, 8, 1, here + 1)));
        }
        time = arrival + 5;
    }
    run.truncate(records);
    run
}

/// Every second processor's clock is ahead by this many microseconds, each by a little less than the
/// one before it.
pub fn clocks_off(records: &mut [Record], ahead: i64) {
    for record in records {
        if record.processor % 2 == 1 {
            record.time += ahead - record.processor * ahead / 100;
        }
    }
}

/// Messages of these types from processor 0 to 1, received in the opposite order of types.
pub fn many_types(records: usize, kinds: Range<i64>) -> Vec<Record> {
    let messages = records as i64 / 2;
    let kind = |message: i64| kinds.start + message % (kinds.end - kinds.start);
    let sends = (0..messages).map(|place| Record::send(-21, place, 0, 8, kind(place), 1));
    let receives = (0..messages)
        .map(|place| Record::receive(-52, place + messages, 1, 8, kind(messages - 1 - place), 0));
    sends.chain(receives).collect()
}

/// A chain, forwards or with its records in the opposite file order where processors allow it.
pub(super) fn any_chain(random: &mut Random) -> Draft {
    let processors = match random.below(3) {
        0 => PROCESSORS,
        1 => random.place(4) + 2,
        _ => random.place(PROCESSORS - 1) + 2,
    };
    let length = match random.below(100) {
        0 => random.place(600),
        1..20 => random.place(100),
        _ => random.place(20),
    };
    let mut records = chain(length, processors);
    if !records.len().is_multiple_of(2) && random.chance(70) {
        records.pop();
    }
    spread(&mut records, random.pick(&[0, 0, 1, 3, 1_000]));
    if random.chance(40) {
        records.sort_by_key(|record| -record.processor);
    }
    if random.chance(40) {
        // The clocks run against the chain.
        for record in &mut records {
            record.time += (processors as i64 - record.processor) * random.pick(&[1, 1, 3]);
        }
        records.sort_by_key(|record| (record.processor, record.time));
    }
    mix_events(random, &mut records);
    let latencies = if random.chance(50) { table(random) } else { flat_table(random.up_to(5)) };
    Draft { kind: "chain", trace: trace_of(&records), latencies }
}

/// A ring of waits: each processor receives before it sends on. It has times exactly if its latencies
/// are all 0.
pub(super) fn any_ring(random: &mut Random) -> Draft {
    let length = match random.below(50) {
        0 => PROCESSORS,
        1..10 => random.place(PROCESSORS) + 1,
        _ => random.place(6) + 1,
    };
    let first = random.place(PROCESSORS);
    let member = |place: usize| (first + place % length) as i64 % PROCESSORS as i64;
    let spread = random.pick(&[0, 1, 5, 1_000_000]);
    let mut records = Vec::new();
    for place in 0..length {
        let time = i64::from(random.up_to(spread));
        let here = member(place);
        let kind = random.pick(&[1, 1, 1, 2]);
        records.push(Record::receive(-52, time, here, 8, 1, member(place + length - 1)));
        if random.chance(30) {
            records.push(Record::local(-2, 7, time, here));
        }
        records.push(Record::send(-21, time + i64::from(random.up_to(3)), here, 8, 1, member(place + 1)));
        if kind == 2 {
            records.push(Record::send(-21, time + 10, here, 8, kind, member(place + 1)));
        }
    }
    if random.chance(30) {
        records.rotate_left(random.place(length));
        // What was one processor's run may have been cut in two: put each in order again.
        records.sort_by_key(|record| (record.processor, record.time));
    }
    mix_events(random, &mut records);
    let mut latencies = flat_table(0);
    if random.chance(30) {
        let place = random.place(length);
        let entry = PROCESSORS * member(place) as usize + member(place + 1) as usize;
        latencies[entry] = random.pick(&[1, 1, 7, MAX_LATENCY]);
    } else if random.chance(30) {
        // A latency where no message of the ring goes, or only by chance.
        latencies[random.place(LATENCIES)] = random.pick(&[1, MAX_LATENCY]);
    }
    Draft { kind: "ring", trace: trace_of(&records), latencies }
}
