//! The comparison tried on which line goes next: mergers that write the same lines in another order, or not
//! all of them, must all be found out.

mod common;

use common::{is_passed, lines_of, merger_is_found as found, merger_passes as passes};
use reference::field::fields;
use reference::merge::{Merged, lines, merge, time};
use std::iter;

/// Merges as it is right, but writes something else.
fn writing(text: impl Fn(&[u8], &[u8]) -> Vec<u8>) -> impl Fn(&[u8], &[u8], u32, &mut [u8]) -> Merged {
    move |first, second, choice, room| {
        let answer = merge(first, second, choice, room);
        if answer.number != 0 {
            return answer;
        }
        let text = text(first, second);
        room[..text.len()].copy_from_slice(&text);
        Merged { written: text.len() as u64, ..answer }
    }
}

/// Merges by another rule for the two lines at the heads.
fn by_heads(theirs_next: impl Fn(&[u8], &[u8]) -> bool) -> impl Fn(&[u8], &[u8], u32, &mut [u8]) -> Merged {
    writing(move |first, second| {
        let (mut ours, mut theirs) = (lines_of(first).peekable(), lines_of(second).peekable());
        let next = || match (ours.peek(), theirs.peek()) {
            (Some(one), Some(other)) if theirs_next(one, other) => theirs.next(),
            (None, _) => theirs.next(),
            _ => ours.next(),
        };
        iter::from_fn(next).collect::<Vec<_>>().concat()
    })
}

/// Whether of two lines at the heads the second trace's goes next.
type Rule = fn(&[u8], &[u8]) -> bool;

/// A timestamp as it stands there.
fn stamp(line: &[u8]) -> &[u8] {
    fields(line).nth(2).unwrap().text
}

/// A timestamp's meaning.
fn micros(line: &[u8]) -> i64 {
    time(line).unwrap()
}

#[test]
fn other_rules_for_the_heads_are_found() {
    assert!(passes(by_heads(|one, other| micros(other) < micros(one))));
    let wrong: [(&str, Rule); 14] = [
        ("the second's where equal", |one, other| micros(other) <= micros(one)),
        ("the larger", |one, other| micros(other) > micros(one)),
        ("the first's always", |_, _| false),
        ("the second's always", |_, _| true),
        ("compared as text", |one, other| stamp(other) < stamp(one)),
        ("as text, the shorter first", |one, other| {
            (stamp(other).len(), stamp(other)) < (stamp(one).len(), stamp(one))
        }),
        ("whole lines as text", |one, other| other < one),
        ("seconds alone", |one, other| micros(other) / 1_000_000 < micros(one) / 1_000_000),
        ("fractions alone", |one, other| micros(other) % 1_000_000 < micros(one) % 1_000_000),
        ("without signs", |one, other| micros(other).abs() < micros(one).abs()),
        ("as unsigned numbers", |one, other| (micros(other) as u64) < micros(one) as u64),
        ("32 bits of them", |one, other| (micros(other) as i32) < micros(one) as i32),
        ("what is passed over first", |one, other| {
            !is_passed(one) && (is_passed(other) || micros(other) < micros(one))
        }),
        ("what is passed over last", |one, other| {
            !is_passed(other) && (is_passed(one) || micros(other) < micros(one))
        }),
    ];
    for (name, theirs_next) in wrong {
        assert!(found(by_heads(theirs_next)), "{name}");
    }
}

/// The lines of both traces, those of the first before those of the second, sorted by something.
fn sorted<K: Ord>(key: impl Fn(&[u8]) -> K) -> impl Fn(&[u8], &[u8], u32, &mut [u8]) -> Merged {
    writing(move |first, second| {
        let mut all: Vec<&[u8]> = lines_of(first).chain(lines_of(second)).collect();
        all.sort_by_key(|line| key(line));
        all.concat()
    })
}

#[test]
fn other_orders_are_found() {
    assert!(found(sorted(time)), "sorted by time over all lines");
    assert!(found(sorted(|line| (is_passed(line), time(line)))), "what is passed over at the end");
    assert!(found(writing(|first, second| [first, second].concat())), "one trace behind the other");
    assert!(found(writing(by_turns)), "by turns");
    assert!(found(writing(by_listed_lines)), "what is passed over with the listed line before it");
}

fn by_turns(first: &[u8], second: &[u8]) -> Vec<u8> {
    let (mut ours, mut theirs) = (lines_of(first), lines_of(second));
    let turns = iter::from_fn(|| match (ours.next(), theirs.next()) {
        (None, None) => None,
        (one, other) => Some([one.unwrap_or_default(), other.unwrap_or_default()]),
    });
    turns.flatten().collect::<Vec<_>>().concat()
}

fn by_listed_lines(first: &[u8], second: &[u8]) -> Vec<u8> {
    let keyed = |trace| -> Vec<_> {
        let mut last = i64::MIN;
        let keyed = lines_of(trace).map(|line| {
            last = if is_passed(line) { last } else { last.max(micros(line)) };
            (last, line)
        });
        keyed.collect()
    };
    let mut all = [keyed(first), keyed(second)].concat();
    all.sort_by_key(|&(last, _)| last);
    all.into_iter().flat_map(|(_, line)| line).copied().collect()
}

#[test]
fn lost_lines_are_found() {
    let all = |first: &[u8], second: &[u8]| lines(first, second).collect::<Vec<_>>().concat();
    assert!(passes(writing(all)));
    assert!(found(writing(|first, second| {
        lines(first, second).filter(|line| !is_passed(line)).collect::<Vec<_>>().concat()
    })));
    assert!(found(writing(|first, second| {
        let mut merged: Vec<&[u8]> = lines(first, second).collect();
        merged.dedup();
        merged.concat()
    })));
    assert!(found(writing(up_to_the_end_of_one)));
}

/// What is left of one trace when the other ends is lost.
fn up_to_the_end_of_one(first: &[u8], second: &[u8]) -> Vec<u8> {
    let merged: Vec<&[u8]> = lines(first, second).collect();
    let end_of = |trace: &[u8]| match lines_of(trace).next_back() {
        Some(last) => {
            merged.iter().position(|line| line.as_ptr() == last.as_ptr()).map_or(0, |place| place + 1)
        }
        None => 0,
    };
    merged[..end_of(first).min(end_of(second))].concat()
}
