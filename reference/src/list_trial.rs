//! One lister of messages and chains held against another, as [`trial`](crate::trial) holds judges.

use crate::chain::{IN_ORDER, Moved, Step};
use crate::generator::inquiry::{Inquiry, Link};
use crate::lent::{Lent, pattern};
use crate::list::{self, Ends, Filled};
use crate::refusal::{BYTES, LEVELS, NO_RECORD, NO_TIMES, RECORDS, ROOM, STATISTICS};
use crate::trial::below_floor;
use crate::{MAX_RECORDS, Question, Solved, solve};
use std::collections::BTreeMap;
use std::fmt;

/// Everything that is lent in the calls on one trace.
#[derive(Default)]
struct Call {
    trace: Lent<u8>,
    latencies: Lent<u32>,
    messages: Lent<Ends>,
    chain: Lent<u64>,
}

impl Call {
    /// Lends a trace and its table, for all calls on them, and forgets the lists of the inquiry before.
    fn prepare(&mut self, inquiry: &Inquiry) {
        let mix = |place| pattern(inquiry.seed, place);
        self.messages = Lent::default();
        self.chain = Lent::default();
        self.trace.prepare_with(inquiry.offset, &inquiry.trace, |place| mix(place) as u8);
        self.latencies.prepare_with(inquiry.offset / 3, &inquiry.latencies, |place| mix(place) as u32);
    }

    fn list_messages(
        &mut self,
        inquiry: &Inquiry,
        messages: impl FnOnce(Question, &mut [Ends]) -> Filled,
    ) -> Filled {
        let mix = |place| pattern(inquiry.seed, place);
        let both = |place| Ends { send: mix(place), receive: !mix(place) };
        self.messages.prepare(inquiry.offset / 2, inquiry.messages, both);
        let (trace, latencies) = (self.trace.slice(), self.latencies.slice());
        messages(Question { trace, latencies, asked: inquiry.asked }, self.messages.slice())
    }

    fn list_chain(
        &mut self,
        inquiry: &Inquiry,
        link: Link,
        chain: impl FnOnce(Question, u64, &mut [u64]) -> Filled,
    ) -> Filled {
        let mix = |place| pattern(inquiry.seed ^ link.place, place);
        self.chain.prepare(inquiry.offset / 5 + link.list, link.list, mix);
        let (trace, latencies) = (self.trace.slice(), self.latencies.slice());
        chain(Question { trace, latencies, asked: inquiry.asked }, link.place, self.chain.slice())
    }
}

/// The reference and another lister side by side.
#[derive(Default)]
pub struct Trial {
    ours: Call,
    theirs: Call,
}

/// What the reference answers on an inquiry.
#[derive(Debug)]
pub struct Expected {
    pub messages: Filled,
    /// Of each record that was asked for.
    pub chains: Vec<Filled>,
}

impl Trial {
    /// Runs the calls of an inquiry on both sides: what is expected, and the first way in which they differ.
    pub fn run(
        &mut self,
        inquiry: &Inquiry,
        messages: impl FnOnce(Question, &mut [Ends]) -> Filled,
        chain: impl Fn(Question, u64, &mut [u64]) -> Filled,
    ) -> (Expected, Option<String>) {
        let Trial { ours, theirs } = self;
        ours.prepare(inquiry);
        theirs.prepare(inquiry);

        let expected_messages = ours.list_messages(inquiry, list::messages);
        let given = theirs.list_messages(inquiry, messages);
        let mut difference = difference("messages", (&expected_messages, ours), (&given, theirs));

        let mut chains = Vec::with_capacity(inquiry.chains.len());
        for &link in &inquiry.chains {
            let expected = ours.list_chain(inquiry, link, list::chain);
            let given = theirs.list_chain(inquiry, link, &chain);
            chains.push(expected);
            difference = difference.or_else(|| {
                let name = format!("chain of place {} in {} places", link.place, link.list);
                self::difference(&name, (&expected, ours), (&given, theirs))
            });
        }
        (Expected { messages: expected_messages, chains }, difference)
    }
}

/// The first way in which two finished calls differ. What neither of them was to touch is looked at each
/// time: who spoils it twice may have it as it was.
fn difference(name: &str, one: (&Filled, &Call), other: (&Filled, &Call)) -> Option<String> {
    if one.0 != other.0 {
        return Some(format!("{name}: answers differ:\n  {:?}\n  {:?}", one.0, other.0));
    }
    let (one, other) = (one.1, other.1);
    one.messages
        .difference("messages", &other.messages)
        .or_else(|| one.chain.difference(name, &other.chain))
        .or_else(|| one.trace.difference("trace", &other.trace))
        .or_else(|| one.latencies.difference("latencies", &other.latencies))
}

/// More places than a byte can count.
const MANY: usize = 256;

/// Whether a list of messages shows something.
type ShowsMessages = fn(&[Ends]) -> bool;

const SHOWN_MESSAGES: [(&str, ShowsMessages); 5] = [
    ("no message", |list| list.is_empty()),
    ("two or more", |list| list.len() > 1),
    ("many messages", |list| list.len() > MANY),
    ("a later send", |list| list.iter().any(|ends| ends.send > ends.receive)),
    ("sends not sorted", |list| !list.is_sorted_by_key(|ends| ends.send)),
];

/// Whether the chain of a record shows something.
type ShowsChain = fn(&Moved, &[usize]) -> bool;

const SHOWN_CHAINS: [(&str, ShowsChain); 11] = [
    ("unmoved", |_, chain| chain.len() == 1),
    ("unmoved, held", |moved, chain| {
        chain.len() == 1 && IN_ORDER.iter().any(|&step| goes(moved, chain[0], step))
    }),
    ("one step", |_, chain| chain.len() == 2),
    ("more steps", |_, chain| chain.len() > 2),
    ("many steps", |_, chain| chain.len() > MANY),
    ("a tie", has_tie),
    ("processor longer", |moved, chain| !leads_along(moved, chain, IN_ORDER)),
    ("send longer", |moved, chain| !leads_along(moved, chain, SEND_FIRST)),
    ("over a gap", goes_over_gap),
    ("a tie over a gap", |moved, chain| goes_over_gap(moved, chain) && has_tie(moved, chain)),
    ("to itself", |moved, chain| {
        let is_both = |step: &[usize]| {
            let is_before = moved.step(step[0], Step::Processor).is_some_and(|(before, _)| before == step[1]);
            is_before && moved.tight(step[0], Step::Send) == Some(step[1])
        };
        chain.windows(2).any(is_both)
    }),
];

const SEND_FIRST: [Step; 2] = [Step::Send, Step::Processor];

/// Whether a record is where it is by this step.
fn goes(moved: &Moved, place: usize, step: Step) -> bool {
    moved.tight(place, step).is_some()
}

/// Whether a chain has a step to a record before of which a gap is kept.
fn goes_over_gap(moved: &Moved, chain: &[usize]) -> bool {
    let is_gap = |step: &[usize]| {
        let waits = moved.step(step[0], Step::Processor).is_some_and(|(_, kept)| kept > 0);
        waits && moved.tight(step[0], Step::Processor) == Some(step[1])
    };
    chain.windows(2).any(is_gap)
}

/// Whether another chain has as few steps, so that their order decides.
fn has_tie(moved: &Moved, chain: &[usize]) -> bool {
    moved.nearest(chain[0], SEND_FIRST).is_some_and(|other| other != chain)
}

/// Whether who takes the first of these steps that there is at each record comes to the end of a chain in as
/// few of them.
fn leads_along(moved: &Moved, chain: &[usize], order: [Step; 2]) -> bool {
    let mut here = chain[0];
    for _ in 1..chain.len() {
        match order.into_iter().find_map(|step| moved.tight(here, step)) {
            Some(cause) => here = cause,
            None => return false,
        }
    }
    moved.is_at_original(here)
}

/// How often each number came up for each call, what accepted ones showed, and how often each kind of trace
/// there was.
#[derive(Clone, Debug, Default, PartialEq, Eq)]
pub struct Tally {
    /// By the number, of messages and of chains.
    pub messages: BTreeMap<u64, u64>,
    pub chains: BTreeMap<u64, u64>,
    /// By the names of [`SHOWN_MESSAGES`], [`SHOWN_CHAINS`] and [`LENGTHS`].
    pub shown: BTreeMap<&'static str, u64>,
    pub kinds: BTreeMap<&'static str, u64>,
}

/// How long a list that was filled is.
const LENGTHS: [&str; 2] = ["exact list", "longer list"];

/// The numbers that a list can be refused by, but for those behind 15, in their order.
fn numbers_of_judging() -> impl Iterator<Item = u64> {
    (0..=NO_TIMES).chain([LEVELS, STATISTICS])
}

impl Tally {
    pub fn inquiries(&self) -> u64 {
        self.messages.values().sum()
    }

    pub fn count(&mut self, inquiry: &Inquiry, expected: &Expected) {
        *self.kinds.entry(inquiry.kind).or_default() += 1;
        *self.messages.entry(expected.messages.number).or_default() += 1;
        self.count_length(expected.messages, inquiry.messages);
        for (filled, link) in expected.chains.iter().zip(&inquiry.chains) {
            *self.chains.entry(filled.number).or_default() += 1;
            self.count_length(*filled, link.list);
        }
        if let Ok(solved) = solve(inquiry.question(), MAX_RECORDS) {
            self.count_shown(inquiry, expected, &solved);
        }
    }

    fn count_length(&mut self, filled: Filled, list: usize) {
        if filled.number == 0 {
            let name = LENGTHS[usize::from(list as u64 > filled.filled)];
            *self.shown.entry(name).or_default() += 1;
        }
    }

    fn count_shown(&mut self, inquiry: &Inquiry, expected: &Expected, solved: &Solved) {
        if expected.messages.number == 0 {
            let list = list::ends(solved);
            for (name, _) in SHOWN_MESSAGES.into_iter().filter(|(_, shows)| shows(&list)) {
                *self.shown.entry(name).or_default() += 1;
            }
        }
        let moved = Moved::of(solved);
        let filled = expected.chains.iter().zip(&inquiry.chains).filter(|(filled, _)| filled.number == 0);
        for chain in filled.filter_map(|(_, link)| moved.nearest(link.place as usize, IN_ORDER)) {
            for (name, _) in SHOWN_CHAINS.into_iter().filter(|(_, shows)| shows(&moved, &chain)) {
                *self.shown.entry(name).or_default() += 1;
            }
        }
    }

    /// Each number of each call, by what it is called, and how often it came up.
    fn numbers(&self) -> impl Iterator<Item = (String, u64, u64)> {
        let rows =
            |call: &'static str, times: &BTreeMap<u64, u64>, behind: &[u64]| -> Vec<(String, u64, u64)> {
                numbers_of_judging()
                    .chain(behind.iter().copied())
                    .map(|number| {
                        (format!("{call} {number}"), number, times.get(&number).copied().unwrap_or_default())
                    })
                    .collect()
            };
        let messages = rows("messages", &self.messages, &[ROOM]);
        messages.into_iter().chain(rows("chain", &self.chains, &[NO_RECORD, ROOM]))
    }

    fn shown(&self) -> impl Iterator<Item = (&'static str, u64)> {
        let names =
            SHOWN_MESSAGES.map(|(name, _)| name).into_iter().chain(SHOWN_CHAINS.map(|(name, _)| name));
        names.chain(LENGTHS).map(|name| (name, self.shown.get(name).copied().unwrap_or_default()))
    }

    /// What came up less often than a run of 50,000 inquiries must show.
    pub fn too_seldom(&self) -> Vec<String> {
        let numbers = self.numbers().map(|(name, number, times)| {
            let floor = match number {
                0 => 10_000,
                BYTES | RECORDS => 20,
                ROOM | NO_RECORD => 1_000,
                _ => 100,
            };
            (name, times, floor)
        });
        let shown = self.shown().map(|(name, times)| {
            let floor = if name.starts_with("many") { 50 } else { 1_000 };
            (name.to_string(), times, floor)
        });
        below_floor(numbers.chain(shown))
    }
}

impl fmt::Display for Tally {
    fn fmt(&self, out: &mut fmt::Formatter) -> fmt::Result {
        for (kind, times) in &self.kinds {
            writeln!(out, "{kind:<17}{times:>8}")?;
        }
        for (name, _, times) in self.numbers() {
            writeln!(out, "{name:<17}{times:>8}")?;
        }
        for (name, times) in self.shown() {
            writeln!(out, "{name:<17}{times:>8}")?;
        }
        Ok(())
    }
}
