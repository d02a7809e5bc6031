//! The comparison tried on refusals: mergers that ask something else before they merge, or ask it at another
//! place of the order, must all be found out.

mod common;

use common::{is_passed, lines_of, merger_is_found as found, merger_passes as passes};
use reference::field::fields;
use reference::form::whole;
use reference::generator::flat_table;
use reference::line;
use reference::merge::{Merged, lines, merge};
use reference::refusal::{ASKED, BYTES, ORDER, RECORDS, ROOM, Refusal, SHARED};
use reference::{Asked, Choice, Inputs, MAX_BYTES, MAX_RECORDS, PROCESSORS, judge, trace};
use std::collections::BTreeSet;

/// What a check sees of a merging.
struct Seen<'a> {
    traces: [&'a [u8]; 2],
    choice: u32,
    room: usize,
}

/// One thing that is asked before traces are merged: the refusal, if it calls for one.
type Check = fn(&Seen) -> Option<Merged>;

/// A refusal that means neither trace, if something calls for it.
fn of_neither(number: u64, calls: bool) -> Option<Merged> {
    calls.then_some(Merged { number, ..Merged::default() })
}

/// A refusal of the first trace, 0, or of the second, 1.
fn of(place: usize, Refusal { number, line, column }: Refusal) -> Merged {
    Merged { number, which: place as u64 + 1, line, column, written: 0 }
}

/// Which lines' processors are looked at.
type Looks = fn(&[u8]) -> bool;
const LISTED: Looks = |line| !is_passed(line);
const ALL: Looks = |_| true;

impl Seen<'_> {
    /// Lenient where the choice is none: a check may come before that of the choice.
    fn reading(&self) -> Choice {
        Choice::numbered(self.choice).unwrap_or(Choice::Lenient)
    }

    fn is_longer(&self, place: usize, limit: usize) -> Option<Merged> {
        (self.traces[place].len() > limit).then(|| of(place, Refusal::of_all(BYTES)))
    }

    fn has_bad_line(&self, place: usize, reading: Choice) -> Option<Merged> {
        Some(of(place, trace::lines(self.traces[place], reading).err()?))
    }

    /// The listed records of a trace that has been read.
    fn records(&self, place: usize) -> Vec<trace::Record> {
        trace::lines(self.traces[place], self.reading()).unwrap().records
    }

    /// The processors of some lines, up to the first bad one.
    fn processors(&self, place: usize, looks: Looks) -> Vec<i64> {
        let is_good = |line: &&[u8]| {
            let ended = line.strip_suffix(b"\n");
            ended.is_some_and(|line| line::read(line, self.reading()).is_ok())
        };
        let good = lines_of(self.traces[place]).take_while(is_good);
        good.filter(|line| looks(line)).filter_map(|line| whole(fields(line).nth(3)?.text)).collect()
    }

    /// Whether something that is made of a processor is the same of one of each.
    fn share(&self, looks: [Looks; 2], made: fn(i64) -> i64) -> Option<Merged> {
        let [ours, theirs]: [BTreeSet<i64>; 2] =
            [0, 1].map(|place| self.processors(place, looks[place]).into_iter().map(made).collect());
        of_neither(SHARED, !ours.is_disjoint(&theirs))
    }

    fn needed(&self) -> usize {
        self.traces[0].len() + self.traces[1].len()
    }
}

/// What is asked, in its order.
const RIGHT: [Check; 7] = [
    |seen| of_neither(ASKED, Choice::numbered(seen.choice).is_none()),
    |seen| seen.is_longer(0, MAX_BYTES),
    |seen| seen.has_bad_line(0, seen.reading()),
    |seen| seen.is_longer(1, MAX_BYTES),
    |seen| seen.has_bad_line(1, seen.reading()),
    |seen| seen.share([LISTED; 2], |processor| processor),
    |seen| of_neither(ROOM, seen.needed() > seen.room),
];

/// Where these stand.
const FIRST_BYTES: usize = 1;
const FIRST_LINES: usize = 2;
const SECOND_BYTES: usize = 3;
const SECOND_LINES: usize = 4;
const SHARING: usize = 5;
const FITTING: usize = 6;

/// Merges what nothing of this calls for a refusal of.
fn by_checks(checks: Vec<Check>) -> impl Fn(&[u8], &[u8], u32, &mut [u8]) -> Merged {
    move |first, second, choice, room| {
        let seen = Seen { traces: [first, second], choice, room: room.len() };
        if let Some(refused) = checks.iter().find_map(|check| check(&seen)) {
            return refused;
        }
        let text = lines(first, second).collect::<Vec<_>>().concat();
        room.iter_mut().zip(&text).for_each(|(place, &byte)| *place = byte);
        Merged { written: text.len() as u64, ..Merged::default() }
    }
}

/// Merges with something else asked at a place.
fn with(place: usize, check: Check) -> impl Fn(&[u8], &[u8], u32, &mut [u8]) -> Merged {
    let mut checks = RIGHT.to_vec();
    checks[place] = check;
    by_checks(checks)
}

#[test]
fn what_is_asked_at_another_place_or_not_at_all_is_found() {
    assert!(passes(by_checks(RIGHT.to_vec())));
    for from in 0..RIGHT.len() {
        assert!(found(with(from, |_| None)), "without {from}");
        for to in (0..RIGHT.len()).filter(|&to| to != from) {
            let mut checks = RIGHT.to_vec();
            let moved = checks.remove(from);
            checks.insert(to, moved);
            assert!(found(by_checks(checks)), "{from} at {to}");
        }
    }
    // The second trace before the first.
    let mut checks = RIGHT.to_vec();
    checks[FIRST_BYTES..=SECOND_LINES].rotate_left(2);
    assert!(found(by_checks(checks)));
}

#[test]
fn other_rules_for_a_shared_processor_are_found() {
    let wrong: [(&str, Check); 10] = [
        ("lines passed over, too", |seen| seen.share([ALL, ALL], |processor| processor)),
        ("those of the first trace", |seen| seen.share([ALL, LISTED], |processor| processor)),
        ("those of the second trace", |seen| seen.share([LISTED, ALL], |processor| processor)),
        ("32 bits for 64 processors", |seen| seen.share([LISTED; 2], |processor| processor % 32)),
        ("63 bits", |seen| seen.share([LISTED; 2], |processor| processor.min(62))),
        ("none is 0", |seen| {
            let [ours, theirs] = [0, 1].map(|place| seen.processors(place, LISTED));
            of_neither(SHARED, ours.iter().any(|one| *one != 0 && theirs.contains(one)))
        }),
        ("first records alone", |seen| {
            let [ours, theirs] = [0, 1].map(|place| seen.processors(place, LISTED).first().copied());
            of_neither(SHARED, ours.is_some() && ours == theirs)
        }),
        ("last records alone", |seen| {
            let [ours, theirs] = [0, 1].map(|place| seen.processors(place, LISTED).last().copied());
            of_neither(SHARED, ours.is_some() && ours == theirs)
        }),
        ("who a message goes to, too", |seen| {
            let mut ours = seen.processors(0, LISTED);
            ours.extend(seen.records(0).iter().filter_map(|record| match record.role {
                line::Role::Send(message) => Some(message.partner as i64),
                _ => None,
            }));
            of_neither(SHARED, seen.processors(1, LISTED).iter().any(|one| ours.contains(one)))
        }),
        ("its line in the second trace", |seen| {
            let ours = seen.processors(0, LISTED);
            let theirs = seen.records(1);
            let shared = theirs.iter().find(|record| ours.contains(&(record.processor as i64)))?;
            Some(of(1, Refusal::of_line(SHARED, shared.line)))
        }),
    ];
    for (name, check) in wrong {
        assert!(found(with(SHARING, check)), "{name}");
    }
}

#[test]
fn other_limits_are_found() {
    let wrong: [(&str, usize, Check); 9] = [
        ("65,536 bytes are too many in the first", FIRST_BYTES, |seen| seen.is_longer(0, MAX_BYTES - 1)),
        ("and in the second", SECOND_BYTES, |seen| seen.is_longer(1, MAX_BYTES - 1)),
        ("65,537 bytes are good in the first", FIRST_BYTES, |seen| seen.is_longer(0, MAX_BYTES + 1)),
        ("and in the second", SECOND_BYTES, |seen| seen.is_longer(1, MAX_BYTES + 1)),
        ("bytes counted on from the first", SECOND_BYTES, |seen| {
            seen.is_longer(1, MAX_BYTES.saturating_sub(seen.traces[0].len()))
        }),
        ("bytes of both", FITTING, |seen| {
            of_neither(BYTES, seen.needed() > MAX_BYTES).or_else(|| RIGHT[FITTING](seen))
        }),
        ("records counted on from the first", SECOND_LINES, |seen| {
            RIGHT[SECOND_LINES](seen).or_else(|| {
                let beyond = seen.records(1).into_iter().nth(MAX_RECORDS - seen.records(0).len())?;
                Some(of(1, Refusal::of_line(RECORDS, beyond.line)))
            })
        }),
        ("records of both", FITTING, |seen| {
            let listed = seen.records(0).len() + seen.records(1).len();
            of_neither(RECORDS, listed > MAX_RECORDS).or_else(|| RIGHT[FITTING](seen))
        }),
        ("the last times kept from the first", SECOND_LINES, |seen| {
            RIGHT[SECOND_LINES](seen).or_else(|| {
                let mut last = [i64::MIN; PROCESSORS];
                for record in seen.records(0) {
                    last[record.processor] = record.time;
                }
                let theirs = seen.records(1);
                let early = theirs.iter().find(|record| record.time < last[record.processor])?;
                Some(of(1, Refusal::of_line(ORDER, early.line)))
            })
        }),
    ];
    for (name, place, check) in wrong {
        assert!(found(with(place, check)), "{name}");
    }
}

#[test]
fn other_rooms_are_found() {
    let wrong: [(&str, Check); 6] = [
        ("an exact fit is none", |seen| of_neither(ROOM, seen.needed() >= seen.room)),
        ("one byte short is a fit", |seen| of_neither(ROOM, seen.needed() > seen.room + 1)),
        ("nothing but an exact fit", |seen| of_neither(ROOM, seen.needed() != seen.room)),
        ("room for either trace", |seen| {
            of_neither(ROOM, seen.traces.iter().any(|trace| trace.len() > seen.room))
        }),
        ("no more than a trace may have", |seen| of_neither(ROOM, seen.needed() > seen.room.min(MAX_BYTES))),
        ("no room at all", |seen| of_neither(ROOM, seen.needed() > seen.room || seen.room == 0)),
    ];
    for (name, check) in wrong {
        assert!(found(with(FITTING, check)), "{name}");
    }
}

#[test]
fn other_choices_are_found() {
    let wrong: [fn(u32) -> u32; 7] = [
        |_| 1,
        |_| 2,
        |choice| choice & 3,
        |choice| choice & 0xff,
        |choice| choice & 0x7fff_ffff,
        |choice| choice.min(2),
        |choice| choice.max(1),
    ];
    for (place, choice_of) in wrong.into_iter().enumerate() {
        let merger = |first: &[u8], second: &[u8], choice, room: &mut [u8]| {
            merge(first, second, choice_of(choice), room)
        };
        assert!(found(merger), "{place}");
    }
    // Strict or lenient for one trace alone.
    assert!(found(with(FIRST_LINES, |seen| seen.has_bad_line(0, Choice::Strict))));
    assert!(found(with(FIRST_LINES, |seen| seen.has_bad_line(0, Choice::Lenient))));
    assert!(found(with(SECOND_LINES, |seen| seen.has_bad_line(1, Choice::Strict))));
    assert!(found(with(SECOND_LINES, |seen| seen.has_bad_line(1, Choice::Lenient))));
}

/// Merges as it is right, but refuses what would be refused by one of these as a trace.
fn judging(numbers: &[u64]) -> impl Fn(&[u8], &[u8], u32, &mut [u8]) -> Merged {
    move |first, second, choice, room| {
        let mut tried = room.to_vec();
        let answer = merge(first, second, choice, &mut tried);
        let again = judge(Inputs {
            trace: &tried[..answer.written as usize],
            latencies: &flat_table(5),
            asked: Asked::choice_alone(choice),
            times: &mut vec![0; MAX_RECORDS],
            wanted: false,
            room: &mut [],
        });
        if answer.number == 0 && numbers.contains(&again.number) {
            return Merged { number: again.number, line: again.line, ..Merged::default() };
        }
        merge(first, second, choice, room)
    }
}

/// 4, 12 and all behind it is for whoever reads the merged trace.
#[test]
fn what_is_not_asked_is_found() {
    for number in [4, 12, 13, 14, 15] {
        assert!(found(judging(&[number])), "{number}");
    }
    // No merged trace calls for these.
    assert!(passes(judging(&[5, 6, 7, 8, 9, 10, 11])));
}
