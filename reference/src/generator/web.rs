//! Webs of messages among few processors, most of them at one time: what moves has many causes, and many of
//! them are as near as others.

use super::random::Random;
use super::record::{Record, any_unlisted, trace_of};
use super::run::in_file_order;
use super::{Draft, flat_table};
use crate::clock::kept;
use crate::{LATENCIES, PROCESSORS};
use std::array;
use std::collections::VecDeque;

/// So much are some clocks ahead of the others.
const AHEAD: i64 = 10;

pub fn any(random: &mut Random, share: u32) -> Draft {
    let latencies = match random.below(4) {
        0 | 1 => flat_table(0),
        2 => flat_table(random.up_to(3)),
        _ => (0..LATENCIES).map(|_| random.up_to(2)).collect(),
    };
    let records = if random.chance(25) { two_ways(random, &latencies, share) } else { records(random) };
    let mut filed = in_file_order(random, records);
    if random.chance(20) {
        for _ in 0..=random.below(3) {
            filed.insert(random.place(filed.len() + 1), any_unlisted(random));
        }
    }
    Draft { kind: "web", trace: trace_of(&filed), latencies }
}

/// Each processor sends, receives what is on its way to it, or does something else. No clock waits for a
/// message.
fn records(random: &mut Random) -> Vec<Record> {
    let processors = random.pick(&[1, 2, 2, 3, 3, 4, 5]);
    let kinds = random.between(1, 2);
    let many = match random.below(10) {
        0..5 => random.between(2, 12),
        5..9 => random.between(10, 30),
        _ => random.between(20, 120),
    };
    let step = random.pick(&[0, 0, 0, 1, 3, 3, 7]);
    let mut shown = [0; PROCESSORS];
    for clock in &mut shown[..processors as usize] {
        *clock = random.pick(&[0, 0, 0, AHEAD, AHEAD - 1]);
    }
    // What is on its way to a processor: from whom, and its type.
    let mut flying: Vec<VecDeque<(i64, i64)>> = vec![VecDeque::new(); PROCESSORS];
    let records = (0..many).map(|_| {
        let here = random.between(0, processors - 1);
        shown[here as usize] += i64::from(random.up_to(step));
        let time = shown[here as usize];
        match random.below(10) {
            0..4 => {
                let (to, kind) = (random.between(0, processors - 1), random.between(1, kinds));
                flying[to as usize].push_back((here, kind));
                Record::send(-21, time, here, 8, kind, to)
            }
            4..8 => match flying[here as usize].pop_front() {
                Some((from, kind)) => Record::receive(-52, time, here, 8, kind, from),
                None => Record::local(0, 0, time, here),
            },
            _ => Record::local(0, 0, time, here),
        }
    });
    records.collect()
}

/// A receive that is as late as it is by two ways, the one over its processor and the gaps that are kept there,
/// and the other over its send, which are as long or nearly so.
fn two_ways(random: &mut Random, latencies: &[u32], share: u32) -> Vec<Record> {
    let mut left: Vec<i64> = (0..PROCESSORS as i64).collect();
    let [here, one, other, between] = array::from_fn(|_| left.swap_remove(random.place(left.len())));
    let latency = |from: i64, to: i64| i64::from(latencies[PROCESSORS * from as usize + to as usize]);
    let by_send = latency(other, between) + latency(between, here);
    let locals = random.place(5);
    let any = random.place(5);
    let others = random.pick(&[locals.saturating_sub(1), locals.saturating_sub(1), locals, any]);
    let at = |processor, gap| move |place: usize| Record::local(0, 0, gap * place as i64, processor);

    // The receive is so late by its own clock that it is moved all the same.
    let gap = random.pick(&[0, 3, 7]);
    let last = gap * (locals as i64 + 1);
    let kept = kept(share, gap) * (locals as i64 + 1);
    let sent = AHEAD + last;

    let mut records =
        vec![Record::send(-21, sent + by_send, one, 8, 1, here), Record::receive(-52, 0, here, 8, 1, one)];
    records.extend((1..=locals).map(at(here, gap)));
    records.push(Record::send(-21, sent + kept + latency(one, here), other, 8, 1, between));
    records.push(Record::receive(-52, 0, between, 8, 1, other));
    records.extend((0..others).map(at(between, 0)));
    records.push(Record::send(-21, 0, between, 8, 1, here));
    records.push(Record::receive(-52, last, here, 8, 1, between));
    records.extend((0..random.place(3)).map(|_| Record::local(0, 0, last, here)));
    records
}
