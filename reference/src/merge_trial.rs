//! One merger held against another on a pair of traces, as [`trial`](crate::trial) holds judges.

use crate::field::fields;
use crate::form::whole;
use crate::generator::pair::Pair;
use crate::lent::{Lent, pattern};
use crate::line::{self, Line};
use crate::merge::{self, Merged};
use crate::refusal::{ASKED, BYTES, RECORDS, ROOM, SHARED};
use crate::trial::below_floor;
use crate::{Choice, MAX_BYTES, MAX_RECORDS, trace};
use std::collections::{BTreeMap, BTreeSet};
use std::fmt;

/// Everything that is lent in one merging.
#[derive(Default)]
pub struct Call {
    first: Lent<u8>,
    second: Lent<u8>,
    room: Lent<u8>,
}

impl Call {
    /// Runs a merger on a pair, with slices that stand where the pair says.
    pub fn run(
        &mut self,
        pair: &Pair,
        merger: impl FnOnce(&[u8], &[u8], u32, &mut [u8]) -> Merged,
    ) -> Merged {
        let mix = |place| pattern(pair.seed, place);
        self.first.prepare_with(pair.offset, &pair.first, |place| mix(place) as u8);
        self.second.prepare_with(pair.offset / 3, &pair.second, |place| mix(place) as u8);
        self.room.prepare(pair.offset / 2, pair.room, |place| (mix(place) >> 56) as u8);
        merger(self.first.slice(), self.second.slice(), pair.choice, self.room.slice())
    }
}

/// The first way in which two finished mergings differ.
pub fn difference(one: (&Merged, &Call), other: (&Merged, &Call)) -> Option<String> {
    if one.0 != other.0 {
        return Some(format!("answers differ:\n  {:?}\n  {:?}", one.0, other.0));
    }
    let (one, other) = (one.1, other.1);
    one.room
        .difference("room", &other.room)
        .or_else(|| one.first.difference("first trace", &other.first))
        .or_else(|| one.second.difference("second trace", &other.second))
}

/// Whether a pair that is accepted shows something.
type Shows = fn(&Pair) -> bool;

/// What can be shown, by what it is called.
const SHOWN: [(&str, Shows); 8] = [
    ("interleaved", is_interleaved),
    ("equal times", has_equal_heads),
    ("not sorted", is_unsorted),
    ("passed in both", |pair| {
        let [ours, theirs] = processors(pair);
        !ours.passed.is_disjoint(&theirs.passed)
    }),
    ("passed, listed", |pair| {
        let [ours, theirs] = processors(pair);
        !ours.passed.is_disjoint(&theirs.listed) || !ours.listed.is_disjoint(&theirs.passed)
    }),
    ("one is empty", |pair| pair.first.is_empty() || pair.second.is_empty()),
    ("many bytes", |pair| pair.first.len() + pair.second.len() > MAX_BYTES),
    ("many records", has_many_records),
];

/// Whether lines of either trace stand between those of the other.
fn is_interleaved(Pair { first, second, .. }: &Pair) -> bool {
    let [ours, theirs] = [first, second].map(Vec::as_slice);
    let merged = merged(ours, theirs);
    merged != [ours, theirs].concat() && merged != [theirs, ours].concat()
}

/// Whether it matters which trace is the first, as it does only where times are equal.
fn has_equal_heads(Pair { first, second, .. }: &Pair) -> bool {
    merged(first, second) != merged(second, first)
}

fn merged(first: &[u8], second: &[u8]) -> Vec<u8> {
    merge::lines(first, second).collect::<Vec<_>>().concat()
}

/// Whether a line of the merged trace is earlier than the one before it.
fn is_unsorted(Pair { first, second, .. }: &Pair) -> bool {
    !merge::lines(first, second).map(merge::time).is_sorted()
}

/// Whether the listed records of both are more than a trace may have.
fn has_many_records(Pair { first, second, .. }: &Pair) -> bool {
    let listed = |trace| trace::lines(trace, Choice::Lenient).map_or(0, |listing| listing.records.len());
    listed(first) + listed(second) > MAX_RECORDS
}

/// The processors that a trace's lines name.
#[derive(Default)]
struct Processors {
    listed: BTreeSet<i64>,
    passed: BTreeSet<i64>,
}

/// Those of the first trace and of the second, which are good.
fn processors(Pair { first, second, .. }: &Pair) -> [Processors; 2] {
    [first, second].map(|trace| {
        let mut named = Processors::default();
        for line in trace.split(|&byte| byte == b'\n') {
            let processor = fields(line).nth(3).and_then(|field| whole(field.text));
            match line::read(line, Choice::Lenient) {
                Ok(Line::Listed(_)) => named.listed.extend(processor),
                Ok(Line::Passed) => named.passed.extend(processor),
                Err(_) => {}
            }
        }
        named
    })
}

/// How often each number came up for each trace, what accepted pairs showed, and how often each kind of pair
/// there was.
#[derive(Clone, Debug, Default, PartialEq, Eq)]
pub struct Tally {
    /// By the number and by which trace it means.
    pub numbers: BTreeMap<(u64, u64), u64>,
    /// By the names of [`SHOWN`].
    pub shown: BTreeMap<&'static str, u64>,
    pub kinds: BTreeMap<&'static str, u64>,
}

impl Tally {
    pub fn pairs(&self) -> u64 {
        self.numbers.values().sum()
    }

    pub fn count(&mut self, pair: &Pair, answer: &Merged) {
        *self.numbers.entry((answer.number, answer.which)).or_default() += 1;
        *self.kinds.entry(pair.kind).or_default() += 1;
        if answer.number == 0 {
            for (name, _) in SHOWN.into_iter().filter(|(_, shows)| shows(pair)) {
                *self.shown.entry(name).or_default() += 1;
            }
        }
    }

    /// Each number with the trace that it means, and how often it came up.
    fn numbers(&self) -> impl Iterator<Item = (u64, u64, u64)> {
        let of_one = |which| (BYTES..=RECORDS).map(move |number| (number, which));
        let all = [(0, 0), (ASKED, 0)].into_iter().chain(of_one(1)).chain(of_one(2));
        let times = |key| self.numbers.get(&key).copied().unwrap_or_default();
        all.chain([(SHARED, 0), (ROOM, 0)])
            .map(move |(number, which)| (number, which, times((number, which))))
    }

    fn shown(&self) -> impl Iterator<Item = (&'static str, u64)> {
        SHOWN.into_iter().map(|(name, _)| (name, self.shown.get(name).copied().unwrap_or_default()))
    }

    /// What came up less often than a run of 50,000 pairs must show.
    pub fn too_seldom(&self) -> Vec<String> {
        let numbers = self.numbers().map(|(number, which, times)| {
            let floor = match number {
                0 => 10_000,
                BYTES | RECORDS => 50,
                _ => 100,
            };
            (named(number, which), times, floor)
        });
        let shown = self.shown().map(|(name, times)| {
            let floor = if name.starts_with("many") { 50 } else { 500 };
            (name.to_string(), times, floor)
        });
        below_floor(numbers.chain(shown))
    }
}

fn named(number: u64, which: u64) -> String {
    match (number, which) {
        (0, 0) => "merged".to_string(),
        (_, 0) => format!("number {number}"),
        _ => format!("number {number} of {which}"),
    }
}

impl fmt::Display for Tally {
    fn fmt(&self, out: &mut fmt::Formatter) -> fmt::Result {
        for (kind, times) in &self.kinds {
            writeln!(out, "{kind:<15}{times:>8}")?;
        }
        for (number, which, times) in self.numbers() {
            writeln!(out, "{:<15}{times:>8}", named(number, which))?;
        }
        for (name, times) in self.shown() {
            writeln!(out, "{name:<15}{times:>8}")?;
        }
        Ok(())
    }
}
