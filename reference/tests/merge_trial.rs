//! The comparison of mergers tried: those whose answer is wrong in one way each, or who touch what they may
//! not, must all be found out. `merge_order.rs` has those that write other bytes, `merge_checks.rs` those
//! that refuse otherwise.

mod common;

use common::{lines_of, merger_is_found as found, merger_passes as passes};
use reference::generator::pair::Pair;
use reference::merge::{Merged, merge, time};
use reference::merge_trial::{Call, Tally};
use reference::refusal::{ASKED, BYTES, FORM, ORDER, RECORDS, ROOM, SHARED};
use std::collections::BTreeSet;

/// The same of a merger that spoils what the right one leaves behind.
fn found_after(spoil: impl Fn(Merged, &mut [u8]) -> Merged) -> bool {
    found(|first, second, choice, room| spoil(merge(first, second, choice, room), room))
}

/// The same of a merger that spoils its answer by what it was given.
fn found_by(spoil: impl Fn(Merged, &[u8], &[u8]) -> Merged) -> bool {
    found(|first, second, choice, room| spoil(merge(first, second, choice, room), first, second))
}

#[test]
fn the_right_merger_passes() {
    assert!(passes(merge));
}

#[test]
fn room_touched_behind_the_merged_bytes_is_found() {
    assert!(found_after(|answer, room| {
        room.iter_mut().skip(answer.written as usize).take(1).for_each(|byte| *byte = b'\n');
        answer
    }));
    assert!(found_after(|answer, room| {
        room.iter_mut().skip(answer.written as usize).last().into_iter().for_each(|byte| *byte ^= 1);
        answer
    }));
}

/// As much as there is room for is written by each refusal, of either trace or of neither.
#[test]
fn room_touched_by_a_refusal_is_found() {
    let of_one = |number| [(number, 1), (number, 2)];
    let both = [BYTES, FORM, ORDER, RECORDS].map(of_one).concat();
    for refusal in [&both[..], &[(ASKED, 0), (SHARED, 0), (ROOM, 0)]].concat() {
        let wrong = |first: &[u8], second: &[u8], choice, room: &mut [u8]| {
            let answer = merge(first, second, choice, room);
            if (answer.number, answer.which) == refusal {
                room.iter_mut().zip(first.iter().chain(second)).for_each(|(place, &byte)| *place = byte);
            }
            answer
        };
        assert!(found(wrong), "{refusal:?}");
    }
}

#[test]
fn another_trace_is_found() {
    let exchanged = |which: u64| if which == 0 { 0 } else { 3 - which };
    assert!(found_after(|answer, _| Merged { which: exchanged(answer.which), ..answer }));
    for which in 0..=2 {
        assert!(found_after(|answer, _| Merged { which, ..answer }), "always {which}");
    }
    // One for what means neither.
    for number in [0, ASKED, SHARED, ROOM] {
        let wrong = |answer: Merged, _: &mut [u8]| match answer.number == number {
            true => Merged { which: 1, ..answer },
            false => answer,
        };
        assert!(found_after(wrong), "{number}");
    }
}

#[test]
fn other_lines_and_columns_are_found() {
    assert!(found_after(|answer, _| Merged { line: 0, ..answer }));
    assert!(found_after(|answer, _| Merged { column: 0, ..answer }));
    assert!(found_after(|answer, _| Merged { line: answer.line.min(1), ..answer }));
    for number in [0, ASKED, BYTES, SHARED, ROOM] {
        let calls = |answer: Merged| u64::from(answer.number == number);
        assert!(found_after(|answer, _| Merged { line: answer.line + calls(answer), ..answer }), "{number}");
        assert!(
            found_after(|answer, _| Merged { column: answer.column + calls(answer), ..answer }),
            "{number}"
        );
    }
}

#[test]
fn lines_and_columns_of_the_merged_file_are_found() {
    // The second trace behind the first.
    assert!(found_by(|answer, first, _| match answer.which {
        2 => Merged { line: answer.line + lines_of(first).count() as u64, ..answer },
        _ => answer,
    }));
    assert!(found_by(|answer, first, _| match (answer.which, answer.column) {
        (2, 1..) => Merged { column: answer.column + first.len() as u64, ..answer },
        _ => answer,
    }));
    // Earlier lines of the other before the refused one.
    assert!(found_by(|answer, first, second| {
        let (own, other) = if answer.which == 1 { (first, second) } else { (second, first) };
        let refused = lines_of(own).nth((answer.line as usize).wrapping_sub(1));
        let earlier = |refused| lines_of(other).filter(|line| time(line) < time(refused)).count();
        Merged { line: answer.line + refused.map_or(0, earlier) as u64, ..answer }
    }));
}

#[test]
fn other_lengths_are_found() {
    assert!(found_after(|answer, _| Merged { written: 0, ..answer }));
    assert!(found_after(|answer, _| Merged { written: answer.written.saturating_sub(1), ..answer }));
    assert!(found_after(|answer, _| Merged { written: u64::from(answer.written as u16), ..answer }));
    assert!(found_after(|answer, room| match answer.number {
        0 => Merged { written: room.len() as u64, ..answer },
        _ => answer,
    }));
    // What would have been written, of each refusal.
    for number in [ASKED, FORM, SHARED, ROOM] {
        let wrong = |answer: Merged, first: &[u8], second: &[u8]| match answer.number == number {
            true => Merged { written: (first.len() + second.len()) as u64, ..answer },
            false => answer,
        };
        assert!(found_by(wrong), "{number}");
    }
}

/// Every number with each trace that it can mean.
fn all_numbers() -> BTreeSet<(u64, u64)> {
    let of_one = |which| (BYTES..=RECORDS).map(move |number| (number, which));
    [(0, 0), (ASKED, 0), (SHARED, 0), (ROOM, 0)].into_iter().chain(of_one(1)).chain(of_one(2)).collect()
}

/// Every number comes up for each trace that it can mean, and a seed gives the same pair again.
#[test]
fn the_generator_reaches_everything() {
    const PAIRS: u64 = 5_000;
    let mut tally = Tally::default();
    let mut call = Call::default();
    for seed in 0..PAIRS {
        let pair = Pair::from_seed(seed);
        assert_eq!(pair, Pair::from_seed(seed));
        tally.count(&pair, &call.run(&pair, merge));
    }
    assert_eq!(tally.numbers.keys().copied().collect::<BTreeSet<_>>(), all_numbers(), "{tally}");
    assert_eq!((tally.pairs(), tally.kinds.values().sum()), (PAIRS, PAIRS));
    // Nothing that is asked for is missing.
    assert!(!tally.too_seldom().iter().any(|lack| lack.contains("came up 0 times")), "{tally}");
}

/// So many pairs as `reference/compare` runs, with what they come to: `cargo test --offline -- --ignored
/// --nocapture` prints it.
#[test]
#[ignore = "takes some seconds"]
fn nothing_comes_up_too_seldom() {
    let mut tally = Tally::default();
    let mut call = Call::default();
    for seed in 0..50_000 {
        let pair = Pair::from_seed(seed);
        tally.count(&pair, &call.run(&pair, merge));
    }
    print!("{tally}");
    assert_eq!(tally.too_seldom(), [""; 0]);
}

/// A run with too few pairs of something says so.
#[test]
fn too_few_pairs_are_told() {
    let numbers = all_numbers().into_iter().map(|key| (key, 10_000)).collect();
    let mut tally = Tally { numbers, ..Tally::default() };
    let shown = tally.too_seldom();
    assert_eq!(shown.len(), 8);
    assert_eq!(shown[0], "interleaved came up 0 times, 500 are asked");
    tally.numbers.insert((0, 0), 9_999);
    tally.numbers.insert((4, 2), 49);
    tally.numbers.remove(&(9, 1));
    assert_eq!(
        tally.too_seldom()[..3],
        [
            "merged came up 9999 times, 10000 are asked",
            "number 9 of 1 came up 0 times, 100 are asked",
            "number 4 of 2 came up 49 times, 50 are asked"
        ]
    );
}
