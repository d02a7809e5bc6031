//! Two traces to be merged, from a seed.
//!
//! Most are those that a judge is tried on, dealt out to two nodes or with their processors moved apart;
//! others have times that lie close, or go to the limits of size.

use super::call::{room_about, wrong_choice};
use super::limit::fill;
use super::random::Random;
use super::record::{Record, STATISTICS, any_unlisted, trace_of};
use super::run::any_run;
use super::{Draft, draft, flat_table, near};
use crate::line::{self, Line, Standing, standing};
use crate::{Choice, MAX_BYTES, MAX_RECORDS, MAX_TIME, PROCESSORS};
use std::array;
use std::collections::HashMap;

/// One merging, with the length of the lent room and how far each lent slice stands off its buffer's first
/// place.
#[derive(Clone, Debug, PartialEq, Eq)]
pub struct Pair {
    pub seed: u64,
    /// Which kind of pair it is.
    pub kind: &'static str,
    pub first: Vec<u8>,
    pub second: Vec<u8>,
    pub choice: u32,
    pub room: usize,
    pub offset: usize,
}

/// The first trace and the second.
type Two = [Vec<u8>; 2];

impl Pair {
    pub fn from_seed(seed: u64) -> Pair {
        let mut random = Random::new(seed);
        let (kind, mut traces) = two(&mut random);
        // A node that has nothing to say writes an empty file.
        for trace in &mut traces {
            if random.chance(3) {
                trace.clear();
            }
        }
        let [first, second] = traces;
        let choice = any_choice(&mut random, kind);
        let either = random.pick(&[first.len(), second.len()]);
        let room = room_about(first.len() + second.len(), either, &mut random);
        let offset = random.below(16) as usize;
        Pair { seed, kind, first, second, choice, room, offset }
    }
}

/// Seldom a wrong one: more often with a long trace, so that it is seen which is refused first.
fn any_choice(random: &mut Random, kind: &str) -> u32 {
    let wrong = if kind == LONG { 10 } else { 2 };
    match random.below(100) {
        number if number < wrong => wrong_choice(random),
        number if number < wrong + 34 => 1,
        _ => 2,
    }
}

/// What the tally calls traces at a limit of size.
const LONG: &str = "long";

fn two(random: &mut Random) -> (&'static str, Two) {
    match random.below(100) {
        0..30 => ("dealt", dealt(random)),
        30..50 => ("apart", apart(random)),
        50..75 => ("close", close(random)),
        75..85 => ("one line", one_line(random)),
        85..94 => ("any two", array::from_fn(|_| draft(random).trace)),
        94 => ("the same twice", array::repeat(draft(random).trace)),
        _ => (LONG, array::from_fn(|side| long(random, side as i64))),
    }
}

/// One trace, good or bad, as two nodes would have written it: the listed records of a processor go to one of
/// them, all other lines to either.
fn dealt(random: &mut Random) -> Two {
    let Draft { trace, .. } = draft(random);
    let node_of: [usize; PROCESSORS] = array::from_fn(|_| random.place(2));
    let mut two = Two::default();
    for line in trace.split_inclusive(|&byte| byte == b'\n') {
        let node = match line::read(line.strip_suffix(b"\n").unwrap_or(line), Choice::Lenient) {
            Ok(Line::Listed(record)) => node_of[record.processor],
            _ => random.place(2),
        };
        two[node].extend(line);
    }
    two
}

/// Two runs whose listed records have processors of their own, as far as there are so many.
fn apart(random: &mut Random) -> Two {
    let forwards = any_order(random);
    let backwards = forwards.iter().rev().copied().collect();
    [forwards, backwards].map(|numbers| {
        let run = any_run(random, &flat_table(0), 0);
        trace_of(&renumbered(run, &numbers))
    })
}

/// The processors in any order.
fn any_order(random: &mut Random) -> Vec<i64> {
    let mut left: Vec<i64> = (0..PROCESSORS as i64).collect();
    (0..PROCESSORS).map(|_| left.swap_remove(random.place(left.len()))).collect()
}

/// The same records, their processors numbered by these as they come up. Lines that are passed over stay as
/// they are, so that they may name any.
fn renumbered(mut records: Vec<Record>, numbers: &[i64]) -> Vec<Record> {
    let mut number_of = HashMap::new();
    for record in records.iter_mut().filter(|record| is_listed(record)) {
        let count = number_of.len();
        record.processor = *number_of.entry(record.processor).or_insert_with(|| numbers[count]);
    }
    records
}

fn is_listed(record: &Record) -> bool {
    let of_event = matches!(record.record_type, -4..=-2 | 0) && standing(record.event) == Standing::Listed;
    of_event || STATISTICS.contains(&record.record_type)
}

/// Times from the lowest to the highest, most of them next to another. As text they stand in another order,
/// and so they do without their signs, their seconds or their fractions.
const CLOSE: [i64; 20] = [
    -MAX_TIME, -100_000_000, -10_000_000, -9_999_999, -2_000_001, -2_000_000, -1_000_000, -2, -1, 0, 1, 2,
    999_999, 1_000_000, 2_000_000, 2_000_001, 9_999_999, 10_000_000, 100_000_000, MAX_TIME,
];

/// Short traces with few times, so that many are equal, and with lines that are passed over at any of them.
/// The listed records of each are of few processors, now and then one of them in both.
fn close(random: &mut Random) -> Two {
    let passed = random.pick(&[0, 0, 20, 60, 95]);
    let numbers = any_order(random);
    let end = random.place(4) + 1;
    let start = end - usize::from(random.chance(25));
    let own = [&numbers[..end], &numbers[start..end + random.place(4) + 1]];
    own.map(|own| {
        let mut clocks = Clocks::any(random);
        let records: Vec<Record> = (0..random.pick(&[1, 2, 5, 10, 30]))
            .map(|_| match random.chance(passed) {
                true => passed_over(random, &numbers[..end + 1]),
                false => {
                    let processor = random.pick(own);
                    let time = clocks.next(random, processor);
                    Record::local(random.pick(&[-2, -3, -4, 0]), random.between(0, 9), time, processor)
                }
            })
            .collect();
        trace_of(&records)
    })
}

/// What each processor's clock shows, as a place of [`CLOSE`].
struct Clocks {
    shown: [usize; PROCESSORS],
    steps: [isize; 4],
}

impl Clocks {
    /// They stop as often as not, and few run backwards.
    fn any(random: &mut Random) -> Clocks {
        let steps = if random.chance(10) { [0, 0, 1, -1] } else { [0, 0, 1, 2] };
        Clocks { shown: array::from_fn(|_| random.place(CLOSE.len())), steps }
    }

    fn next(&mut self, random: &mut Random, processor: i64) -> i64 {
        let shown = &mut self.shown[processor as usize];
        *shown = shown.saturating_add_signed(random.pick(&self.steps)).min(CLOSE.len() - 1);
        CLOSE[*shown]
    }
}

/// A line that is passed over, at a close time, often of one of these processors.
fn passed_over(random: &mut Random, processors: &[i64]) -> Record {
    let mut record = Record { time: random.pick(&CLOSE), ..any_unlisted(random) };
    if random.chance(60) {
        record.processor = random.pick(processors);
    }
    record
}

/// Such traces, and in one of them a line that is good or bad by a hair.
fn one_line(random: &mut Random) -> Two {
    let mut two = close(random);
    let trace = &mut two[random.place(2)];
    let mut lines: Vec<Vec<u8>> = trace.split_inclusive(|&byte| byte == b'\n').map(<[u8]>::to_vec).collect();
    let line = [near::line(random, 0), b"\n".to_vec()].concat();
    lines.insert(random.place(lines.len() + 1), line);
    *trace = lines.concat();
    two
}

/// A trace at a limit of size, alone or together with such another; seldom any. The processors of the first
/// are even, those of the second odd.
fn long(random: &mut Random, side: i64) -> Vec<u8> {
    let about = |limit: usize| [limit, limit, limit + 1, limit / 2, limit / 2, limit / 2 + 1];
    let (records, bytes) = match random.below(8) {
        0 => return draft(random).trace,
        1..5 => (random.pick(&about(MAX_RECORDS)), 0),
        _ => (random.place(MAX_RECORDS / 2), random.pick(&about(MAX_BYTES))),
    };
    let step = random.pick(&[0, 1, 10]);
    let mut time = 0;
    let records: Vec<Record> = (0..records)
        .map(|_| {
            time += i64::from(random.up_to(step));
            Record::local(0, side, time, 2 * random.between(0, 3) + side)
        })
        .collect();
    let mut trace = trace_of(&records);
    fill(random, &mut trace, bytes);
    trace
}
