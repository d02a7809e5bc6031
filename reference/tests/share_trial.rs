//! The comparison tried on shares: who keeps other gaps, or refuses other shares, must be found out.
//! `chain_trial.rs` has those whose chains go over other gaps.

mod common;

use common::{chains_are_found, found_among, found_in, messages_are_found, settled, tried};
use reference::clock::{Floor, floors};
use reference::generator::Case;
use reference::line::Role;
use reference::list;
use reference::refusal::NO_TIMES;
use reference::trace::Record;
use reference::{Answer, Choice, Inputs, MAX_SHARE, Question, judge, message, trace};

const CASES: u64 = 10_000;

/// Cases at a good share above 0. None asks for the written trace: who keeps other gaps is found by times.
fn cases() -> impl Iterator<Item = Case> {
    let unwritten = (0..CASES).map(|seed| Case { wanted: false, ..Case::from_seed(seed) });
    unwritten.filter(|case| (1..=MAX_SHARE).contains(&case.asked.share))
}

/// The records of a trace as they are right, and what they wait for.
struct Seen<'a> {
    text: &'a [u8],
    records: &'a [Record],
    floors: Vec<Floor>,
    share: i64,
}

impl Seen<'_> {
    /// Whether a record is one of statistics, whatever it tells.
    fn is_statistics(&self, place: usize) -> bool {
        let before = &self.text[..self.records[place].stamp.start];
        let start = before.iter().rposition(|&byte| byte == b'\n').map_or(0, |end| end + 1);
        before[start..].starts_with(b"-10")
    }

    /// The original gap between two of them.
    fn gap(&self, before: usize, place: usize) -> i64 {
        self.records[place].time - self.records[before].time
    }
}

/// What a record waits for on its processor by another rule.
type Rule = fn(&Seen, usize) -> Option<(usize, i64)>;

/// The right one.
fn right(seen: &Seen, place: usize) -> Option<(usize, i64)> {
    seen.floors[place].before
}

/// Judges as the reference does, but by other waits.
fn by(rule: Rule) -> impl Fn(Inputs) -> Answer {
    move |mut call| {
        let answer = judge(call.lent());
        if !matches!(answer.number, 0 | NO_TIMES) {
            return answer;
        }
        let Inputs { trace, latencies, asked, times, .. } = call;
        let records = trace::read(trace, Choice::Lenient).unwrap().records;
        let send_of = message::pair(&records).unwrap().send_of;
        let floors = floors(&records, &send_of, latencies, asked.share);
        let seen = Seen { text: trace, records: &records, floors, share: i64::from(asked.share) };
        let other: Vec<Floor> = (0..records.len())
            .map(|place| Floor { before: rule(&seen, place), ..seen.floors[place] })
            .collect();
        // Where there should be none, any times tell.
        let given = if answer.number == 0 { answer } else { Answer::default() };
        settled(given, &other, times)
    }
}

/// The same record before, and a gap by another rule: of the share and the original gap.
macro_rules! keeping {
    ($kept:expr) => {
        |seen: &Seen, place: usize| {
            let (before, _) = right(seen, place)?;
            let kept: fn(i64, i64) -> i64 = $kept;
            Some((before, kept(seen.share, seen.gap(before, place))))
        }
    };
}

#[test]
fn the_right_rule_passes() {
    assert!(!found_among(cases(), by(right)));
    assert!(!found_among(cases(), by(keeping!(|share, gap| share * gap / 1_000))));
}

#[test]
fn other_gaps_are_found() {
    let wrong: [(&str, Rule); 14] = [
        ("none", keeping!(|_, _| 0)),
        ("all", keeping!(|_, gap| gap)),
        ("rounded up", keeping!(|share, gap| (share * gap + 999) / 1_000)),
        ("rounded to the nearest", keeping!(|share, gap| (share * gap + 500) / 1_000)),
        ("one less", keeping!(|share, gap| (share * gap / 1_000 - 1).max(0))),
        ("at least one microsecond", keeping!(|share, gap| (share * gap / 1_000).max(gap.min(1)))),
        ("hundredths", keeping!(|share, gap| share / 10 * gap / 100)),
        ("divided first", keeping!(|share, gap| gap / 1_000 * share)),
        ("1,024 parts", keeping!(|share, gap| share * gap / 1_024)),
        ("what is left", keeping!(|share, gap| (1_000 - share) * gap / 1_000)),
        ("all less what is left", keeping!(|share, gap| gap - (1_000 - share) * gap / 1_000)),
        ("in 32 bits", keeping!(|share, gap| i64::from(share.wrapping_mul(gap) as u32) / 1_000)),
        ("in single precision", keeping!(|share, gap| (share as f32 * gap as f32 / 1_000.0) as i64)),
        ("up to an hour", keeping!(|share, gap| (share * gap / 1_000).min(3_600_000_000))),
    ];
    for (name, rule) in wrong {
        assert!(found_among(cases(), by(rule)), "{name}");
    }
}

/// What the records of a processor up to this one keep of all that is behind its first.
fn from_the_first(seen: &Seen, place: usize) -> i64 {
    let here = seen.records[place].processor;
    let first = seen.records.iter().position(|record| record.processor == here).unwrap_or(place);
    seen.share * seen.gap(first, place) / 1_000
}

#[test]
fn gaps_between_others_are_found() {
    let wrong: [(&str, Rule); 8] = [
        ("the record before in the file", |seen, place| {
            let before = place.checked_sub(1)?;
            Some((before, (seen.share * seen.gap(before, place) / 1_000).max(0)))
        }),
        ("rounded once for a processor", |seen, place| {
            let (before, _) = right(seen, place)?;
            Some((before, from_the_first(seen, place) - from_the_first(seen, before)))
        }),
        ("behind a receive alone", |seen, place| {
            let (before, kept) = right(seen, place)?;
            let receives = matches!(seen.records[before].role, Role::Receive(_));
            Some((before, if receives { kept } else { 0 }))
        }),
        ("not before a receive", |seen, place| {
            let (before, kept) = right(seen, place)?;
            let receives = matches!(seen.records[place].role, Role::Receive(_));
            Some((before, if receives { 0 } else { kept }))
        }),
        ("not before a send", |seen, place| {
            let (before, kept) = right(seen, place)?;
            let sends = matches!(seen.records[place].role, Role::Send(_));
            Some((before, if sends { 0 } else { kept }))
        }),
        ("not before statistics", |seen, place| {
            let (before, kept) = right(seen, place)?;
            Some((before, if seen.is_statistics(place) { 0 } else { kept }))
        }),
        ("not behind statistics", |seen, place| {
            let (before, kept) = right(seen, place)?;
            Some((before, if seen.is_statistics(before) { 0 } else { kept }))
        }),
        ("over statistics", |seen, place| {
            let mut before = right(seen, place)?.0;
            while let Some((further, _)) = right(seen, before).filter(|_| seen.is_statistics(before)) {
                before = further;
            }
            Some((before, seen.share * seen.gap(before, place) / 1_000))
        }),
    ];
    for (name, rule) in wrong {
        assert!(found_among(cases(), by(rule)), "{name}");
    }
}

/// What a share is taken for.
type Taken = fn(u32) -> u32;

/// Judges as if another share were asked for.
fn asking(share: Taken) -> impl Fn(Inputs) -> Answer {
    move |call| judge(Inputs { asked: call.asked.keeping(share(call.asked.share)), ..call })
}

#[test]
fn other_shares_are_found() {
    assert!(!found_in(CASES, asking(|share| share)));
    let wrong: [(&str, Taken); 7] = [
        ("1,000 at the most", |share| share.min(1_000)),
        ("16 bits of it", |share| share & 0xffff),
        ("31 bits of it", |share| share & 0x7fff_ffff),
        ("1,001 as 1,000", |share| if share == 1_001 { 1_000 } else { share }),
        ("1,000 is too high", |share| if share == 1_000 { 1_001 } else { share }),
        ("up to 1,023", |share| if share < 1_024 { share.min(1_000) } else { share }),
        ("999 as 1,000", |share| if share == 999 { 1_000 } else { share }),
    ];
    for (name, share) in wrong {
        assert!(found_in(CASES, asking(share)), "{name}");
    }
}

/// What is given where the share is too high, by what the same call comes to at a good one.
type Given = fn(u64) -> u64;

/// Judges as the reference does, but for that.
fn at_a_wrong_share(given: Given) -> impl Fn(Inputs) -> Answer {
    move |mut call| {
        if call.asked.share <= MAX_SHARE {
            return judge(call);
        }
        let otherwise = tried(Inputs { asked: call.asked.keeping(0), ..call.lent() });
        let number = given(otherwise.number);
        if number == otherwise.number { otherwise } else { Answer { number, ..Answer::default() } }
    }
}

#[test]
fn another_order_of_refusals_is_found() {
    assert!(!found_in(CASES, at_a_wrong_share(|otherwise| if otherwise == 1 { 1 } else { 2 })));
    let wrong: [(&str, Given); 4] = [
        ("1", |_| 1),
        ("2 before 1", |_| 2),
        ("2 behind 3", |otherwise| if matches!(otherwise, 1 | 3) { otherwise } else { 2 }),
        ("2 behind the lines", |otherwise| if (1..=14).contains(&otherwise) { otherwise } else { 2 }),
    ];
    for (name, given) in wrong {
        assert!(found_in(CASES, at_a_wrong_share(given)), "{name}");
    }
    // Not looked at where a trace has no message.
    assert!(found_in(CASES, |mut call| {
        let asked = call.asked.keeping(call.asked.share.min(MAX_SHARE));
        let without = tried(Inputs { asked, ..call.lent() }).verdict == 3;
        judge(if without { Inputs { asked, ..call } } else { call })
    }));
}

// Lists.

/// The same question at another share.
fn at(question: Question, share: u32) -> Question {
    Question { asked: question.asked.keeping(share), ..question }
}

#[test]
fn other_shares_are_found_in_lists() {
    let capped = |share: u32| share.min(MAX_SHARE);
    let ignored = |share: u32| if share > MAX_SHARE { share } else { 0 };
    for other in [capped, ignored] {
        assert!(messages_are_found(|question, list| {
            list::messages(at(question, other(question.asked.share)), list)
        }));
        assert!(chains_are_found(|question, place, list| {
            list::chain(at(question, other(question.asked.share)), place, list)
        }));
    }
}
