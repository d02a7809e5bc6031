//! A trace whose messages and chains are asked for, from a seed.

use super::random::Random;
use super::record::{Record, trace_of};
use super::shape::{any_chain, any_ring, chain, many_types};
use super::workload::ROW;
use super::{Case, Draft, call, damage, draft, flat_table, level, share, statistic, web};
use crate::chain::{IN_ORDER, Moved};
use crate::list::ends;
use crate::{Asked, MAX_RECORDS, Question, Solved, solve};

/// The calls on one trace, with the lengths of the lists that are lent, and how far each lent slice stands
/// off its buffer's first place.
#[derive(Clone, Debug, PartialEq, Eq)]
pub struct Inquiry {
    pub seed: u64,
    /// Which kind of trace it is.
    pub kind: &'static str,
    pub trace: Vec<u8>,
    pub latencies: Vec<u32>,
    pub asked: Asked,
    /// The places of the list of messages.
    pub messages: usize,
    /// The records whose chains are asked for.
    pub chains: Vec<Link>,
    pub offset: usize,
}

/// A record whose chain is asked for, or a place of none, and the places of the list.
#[derive(Clone, Copy, Debug, PartialEq, Eq)]
pub struct Link {
    pub place: u64,
    pub list: usize,
}

/// All records of a trace are asked for where they are not more than this.
const ALL: usize = 24;
/// A few, where they are not more than this: each call takes the rounds of the whole trace again.
const SLOW: usize = 200;

impl Inquiry {
    pub fn from_seed(seed: u64) -> Inquiry {
        let mut random = Random::new(seed);
        let share = share::any(&mut random);
        let Draft { kind, trace, latencies } = any_draft(&mut random, share);
        let choice = if random.chance(20) { 1 } else { 2 };
        let (asked, trace) = level::asked(&mut random, choice, trace);
        let (asked, trace) = statistic::asked(&mut random, asked, trace);
        let asked = asked.keeping(share);
        let offset = random.below(16) as usize;
        // No times are lent, and nothing is written.
        let times = MAX_RECORDS;
        let mut case = Case { seed, kind, trace, latencies, asked, times, wanted: false, room: 0, offset };
        call::spoil(&mut case, &mut random);
        let Case { trace, latencies, asked, .. } = case;
        let question = Question { trace: &trace, latencies: &latencies, asked };
        let (messages, chains) = match solve(question, MAX_RECORDS) {
            Ok(solved) => of_accepted(&mut random, &solved),
            Err(_) => of_refused(&mut random),
        };
        Inquiry { seed, kind, trace, latencies, asked, messages, chains, offset }
    }

    pub fn question(&self) -> Question<'_> {
        Question { trace: &self.trace, latencies: &self.latencies, asked: self.asked }
    }
}

fn any_draft(random: &mut Random, share: u32) -> Draft {
    match random.below(200) {
        0..100 => web::any(random, share),
        100..110 => share::handed_on(random),
        110..120 => any_chain(random),
        120..130 => any_ring(random),
        130..140 => damage::in_messages(random),
        140..142 => long(random),
        _ => draft(random),
    }
}

/// A trace with long lists: many messages, or one that moves all behind it.
fn long(random: &mut Random) -> Draft {
    let limit = random.pick(&[300, 600, 600, MAX_RECORDS]);
    let fewer = random.place(100);
    let many = limit - random.pick(&[0, 0, 1, fewer]);
    let records = match random.below(4) {
        0 | 1 => many_types(many, 0..random.between(1, 90)),
        2 => chain(many, ROW),
        _ => {
            let mut records = chain(2, ROW);
            records.extend((2..many).map(|_| Record::local(0, 0, 0, 1)));
            records
        }
    };
    Draft { kind: "long", trace: trace_of(&records), latencies: flat_table(random.up_to(2)) }
}

/// Lists that a refusal has to leave alone, and some that are empty.
fn of_refused(random: &mut Random) -> (usize, Vec<Link>) {
    let length = |random: &mut Random| random.pick(&[0, 1, 2, 5, 20]);
    let places = [0, random.pick(&[0, 1, 3, MAX_RECORDS as u64, u64::MAX])];
    (length(random), places.map(|place| Link { place, list: length(random) }).to_vec())
}

/// Lists about as long as they have to be, of all records or some, and of places behind the last.
fn of_accepted(random: &mut Random, solved: &Solved) -> (usize, Vec<Link>) {
    let messages = about(random, ends(solved).len());
    let moved = Moved::of(solved);
    let records = moved.times.len();
    let places: Vec<usize> = if records <= ALL {
        (0..records).collect()
    } else if records <= SLOW {
        (0..8).map(|_| random.place(records)).chain([0, records - 1]).collect()
    } else {
        vec![random.place(records), records - 1]
    };
    let mut chains: Vec<Link> = places
        .into_iter()
        .map(|place| {
            let needed = moved.nearest(place, IN_ORDER).map_or(0, |chain| chain.len());
            Link { place: place as u64, list: about(random, needed) }
        })
        .collect();
    let end = records as u64;
    for _ in 0..2 {
        let near = end + random.below(100);
        let far = random.pick(&[near, MAX_RECORDS as u64, 1 << 63, u64::MAX]);
        // One that is good by its low bits.
        let high = (1 << random.pick(&[11, 16, 32, 33, 62])) + random.below(end + 1);
        let place = random.pick(&[end, end, end + 1, far, high.max(end)]);
        let list = random.pick(&[0, 0, 1, 2, 30]);
        chains.push(Link { place, list });
    }
    (messages, chains)
}

/// A length that tells: just enough, one place short, none, or more than is needed.
fn about(random: &mut Random, needed: usize) -> usize {
    match random.below(20) {
        0..10 => needed,
        10..13 => needed.saturating_sub(1),
        13 => 0,
        14 => random.place(needed + 1),
        15 => MAX_RECORDS,
        _ => needed + random.place(8) + 1,
    }
}
