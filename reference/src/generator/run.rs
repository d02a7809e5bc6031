//! Runs of a machine: sound by their true times, then seen through clocks of their own.

use super::nonblocking::{Mixture, with_requests};
use super::random::Random;
use super::record::{Record, any_local, any_unlisted, trace_of};
use super::{Draft, table};
use crate::{MAX_TIME, PROCESSORS};
use std::collections::VecDeque;

/// A message on its way.
struct Flying {
    from: usize,
    to: usize,
    kind: i64,
    length: i64,
    arrival: i64,
}

/// How a processor's clock shows the true time.
#[derive(Clone, Copy)]
struct Clock {
    offset: i64,
    /// Millionths by which it runs fast.
    drift: i64,
}

impl Clock {
    fn shows(self, time: i64) -> i64 {
        let shown = time + self.offset + time * self.drift / 1_000_000;
        shown.clamp(-MAX_TIME, MAX_TIME)
    }
}

/// A run of any size under any clocks.
pub fn skewed(random: &mut Random) -> Draft {
    let table = table(random);
    let records = any_run(random, &table, 0);
    Draft { kind: "run", trace: trace_of(&records), latencies: table }
}

/// A run at the highest or the lowest times, where a clock may show no further.
pub fn at_the_end_of_time(random: &mut Random) -> Draft {
    let table = table(random);
    let start = if random.chance(70) {
        MAX_TIME - random.pick(&[0, 1, 5, 20, 100, 5_000, 100_000, 20_000_000])
    } else {
        -MAX_TIME + random.pick(&[0, 0, 1, 100])
    };
    let records = any_run(random, &table, start);
    Draft { kind: "end of time", trace: trace_of(&records), latencies: table }
}

/// The records of a run in some file order, unlisted lines now and then among them.
pub fn any_run(random: &mut Random, table: &[u32], start: i64) -> Vec<Record> {
    let processors = match random.below(8) {
        0 => 1,
        1..=4 => random.place(5) + 2,
        _ => random.place(PROCESSORS) + 1,
    };
    let steps = match random.below(100) {
        0..40 => random.below(8),
        40..85 => random.below(40),
        85..99 => random.below(200),
        _ => random.below(1_500),
    };
    let gap = random.pick(&[0, 1, 10, 1_000, 100_000]);
    let messages_and_more = simulate(random, table, start, processors, steps, gap);
    let true_run = with_requests(random, messages_and_more);
    let shown = through_clocks(random, true_run);
    let mut filed = in_file_order(random, shown);
    if random.chance(30) {
        for _ in 0..=random.below(4) {
            let place = random.place(filed.len() + 1);
            filed.insert(place, any_unlisted(random));
        }
    }
    filed
}

/// A machine of so many processors does so many things, each at a random one of them. Every channel
/// is a queue, so the k-th receive is of the k-th send.
fn simulate(
    random: &mut Random,
    table: &[u32],
    start: i64,
    processors: usize,
    steps: u64,
    gap: u32,
) -> Vec<Record> {
    // Seldom are processors numbered from 0 without a gap: the last is always there.
    let shift = if random.chance(30) { PROCESSORS - processors } else { 0 };
    let kinds = random.pick(&[1, 1, 2, 3, 8]);
    let strange_kinds = random.chance(10);
    let mixture = Mixture::any(random);
    let short_receives = random.pick(&[0, 0, 30, 100]);
    let mut now = [start; PROCESSORS];
    let mut flying: Vec<VecDeque<Flying>> = Vec::new();
    let mut records = Vec::new();
    for _ in 0..steps {
        let here = shift + random.place(processors);
        now[here] += i64::from(random.up_to(gap));
        let at = here as i64;
        let waiting: Vec<usize> = (0..flying.len()).filter(|&queue| flying[queue][0].to == here).collect();
        match random.below(10) {
            0..4 => {
                let to = shift + random.place(processors);
                let mut kind = random.between(0, kinds - 1);
                if strange_kinds {
                    kind = random.pick(&[-1, 999_999_999, -999_999_999, 0, 1]);
                }
                let length = random.pick(&[0, 1, 8, 8, 8, 999_999_999]);
                let event = mixture.send(random);
                records.push(Record::send(event, now[here], at, length, kind, to as i64));
                let arrival = now[here] + i64::from(table[PROCESSORS * here + to]);
                let message = Flying { from: here, to, kind, length, arrival };
                let same = |queue: &VecDeque<Flying>| {
                    (queue[0].from, queue[0].to, queue[0].kind) == (here, to, kind)
                };
                match flying.iter_mut().find(|queue| same(queue)) {
                    Some(queue) => queue.push_back(message),
                    None => flying.push(VecDeque::from([message])),
                }
                if event == -21 && random.chance(30) {
                    now[here] += i64::from(random.up_to(gap));
                    records.push(Record::local(-4, -21, now[here], at));
                }
            }
            4..8 if !waiting.is_empty() => {
                let event = mixture.receive(random);
                if matches!(event, -51 | -52) && random.chance(20) {
                    records.push(Record::local(-3, event, now[here], at));
                }
                let queue = random.pick(&waiting);
                if let Some(message) = flying[queue].pop_front() {
                    now[here] = now[here].max(message.arrival);
                    let Flying { from, kind, length, .. } = message;
                    let received = if random.chance(short_receives) { taken(random, length) } else { length };
                    records.push(Record::receive(event, now[here], at, received, kind, from as i64));
                }
                if flying[queue].is_empty() {
                    flying.swap_remove(queue);
                }
            }
            _ => records.push(any_local(random, now[here], at)),
        }
    }
    records
}

/// How many bytes of a message go into a buffer: all of them, nearly all, or few.
fn taken(random: &mut Random, length: i64) -> i64 {
    random.pick(&[length, length - 1, length / 2, 1, 0]).clamp(0, length)
}

fn through_clocks(random: &mut Random, mut records: Vec<Record>) -> Vec<Record> {
    let offset = random.pick(&[0, 0, 3, 50, 1_000, 1_000_000, 60_000_000]);
    let drift = random.pick(&[0, 0, 0, 100, 1_000]);
    let clocks: Vec<Clock> = (0..PROCESSORS)
        .map(|_| Clock { offset: random.between(-offset, offset), drift: random.between(-drift, drift) })
        .collect();
    for record in &mut records {
        record.time = clocks[record.processor as usize].shows(record.time);
    }
    records
}

/// Any order of the file that keeps each processor's own.
pub(super) fn in_file_order(random: &mut Random, mut records: Vec<Record>) -> Vec<Record> {
    match random.below(5) {
        0 => {}
        1 => records.sort_by_key(|record| record.time),
        2 => records.sort_by_key(|record| record.processor),
        3 => records.sort_by_key(|record| -record.processor),
        _ => return mixed(random, records),
    }
    records
}

fn mixed(random: &mut Random, records: Vec<Record>) -> Vec<Record> {
    let mut queues: Vec<VecDeque<Record>> = (0..PROCESSORS).map(|_| VecDeque::new()).collect();
    for record in records {
        queues[record.processor as usize].push_back(record);
    }
    queues.retain(|queue| !queue.is_empty());
    let mut mixed = Vec::new();
    while !queues.is_empty() {
        let chosen = random.place(queues.len());
        mixed.extend(queues[chosen].pop_front());
        if queues[chosen].is_empty() {
            queues.swap_remove(chosen);
        }
    }
    mixed
}
