//! What is true of every merged trace, tried on generated pairs.

mod common;

use common::judged;
use reference::generator::flat_table;
use reference::generator::pair::Pair;
use reference::merge::{Merged, merge, time};
use reference::{Asked, Choice, MAX_BYTES, MAX_RECORDS, trace};
use std::collections::BTreeSet;

const PAIRS: u64 = 10_000;

/// The answer on two traces with room enough, and the room.
fn merged(first: &[u8], second: &[u8], choice: u32) -> (Merged, Vec<u8>) {
    let mut room = vec![0; first.len() + second.len()];
    (merge(first, second, choice, &mut room), room)
}

/// Those of the first pairs that are merged, with what they become.
fn all_merged() -> impl Iterator<Item = (Pair, Vec<u8>)> {
    (0..PAIRS).map(Pair::from_seed).filter_map(|pair| {
        let (answer, text) = merged(&pair.first, &pair.second, pair.choice);
        (answer.number == 0).then_some((pair, text))
    })
}

fn lines(trace: &[u8]) -> Vec<&[u8]> {
    trace.split_inclusive(|&byte| byte == b'\n').collect()
}

/// "Every line appears once and each trace's own order stays."
#[test]
fn lines_appear_once_and_in_their_own_order() {
    for (Pair { seed, first, second, .. }, text) in all_merged() {
        assert!(are_interleaved(&lines(&text), &lines(&first), &lines(&second)), "seed {seed}");
    }
}

/// Whether these are the lines of both traces, those of either in its order.
fn are_interleaved(all: &[&[u8]], first: &[&[u8]], second: &[&[u8]]) -> bool {
    // So many of the lines up to here may be the first trace's: a line may stand in both.
    let mut taken = BTreeSet::from([0]);
    for (place, line) in all.iter().enumerate() {
        let next = taken.iter().flat_map(|&ours| {
            let of_first = (first.get(ours) == Some(line)).then_some(ours + 1);
            let of_second = (second.get(place - ours) == Some(line)).then_some(ours);
            of_first.into_iter().chain(of_second)
        });
        taken = next.collect();
    }
    all.len() == first.len() + second.len() && taken.contains(&first.len())
}

#[test]
fn what_is_no_interleaving_is_told() {
    let [a, b, c] = [&b"a\n"[..], b"b\n", b"c\n"];
    assert!(are_interleaved(&[a, b, c], &[a, c], &[b]));
    assert!(are_interleaved(&[a, a, b, c], &[a, c], &[a, b]));
    assert!(are_interleaved(&[a, c, a, b], &[a, b], &[a, c]));
    assert!(!are_interleaved(&[c, a, b], &[a, c], &[b]));
    assert!(!are_interleaved(&[a, b], &[a, c], &[b]));
    assert!(!are_interleaved(&[a, b, c, c], &[a, c], &[b]));
    assert!(!are_interleaved(&[a, a, b], &[a, c], &[b]));
}

/// The order told in another way: a line waits for every line before it in its trace, so that it goes by the
/// highest time so far, and where these are equal the first trace's go before the second's.
#[test]
fn lines_stand_by_the_highest_time_so_far() {
    for (Pair { seed, first, second, .. }, text) in all_merged() {
        let mut keyed = [highest_so_far(&first), highest_so_far(&second)].concat();
        keyed.sort_by_key(|&(highest, _)| highest);
        let sorted: Vec<&[u8]> = keyed.into_iter().map(|(_, line)| line).collect();
        assert!(sorted.concat() == text, "seed {seed}");
    }
}

/// Each line with the highest time up to it.
fn highest_so_far(trace: &[u8]) -> Vec<(i64, &[u8])> {
    let mut highest = i64::MIN;
    let keyed = lines(trace).into_iter().map(|line| {
        highest = highest.max(time(line).unwrap());
        (highest, line)
    });
    keyed.collect()
}

/// No line of it is refused by 5 to 11. 4 and 12 are given exactly if both together pass the limits, and the
/// counts are those of both.
#[test]
fn the_merged_trace_reads_as_both_did() {
    let mut numbers = [0; 16];
    for (Pair { seed, first, second, choice, .. }, text) in all_merged() {
        let reading = Choice::numbered(choice).unwrap();
        let [ours, theirs] = [&first, &second].map(|own| trace::read(own, reading).unwrap());
        let (listed, passed) = (ours.records.len() + theirs.records.len(), ours.passed + theirs.passed);
        let (answer, _) = judged(&text, &flat_table(0), Asked::choice_alone(choice));
        numbers[answer.number as usize] += 1;
        let too_long = text.len() > MAX_BYTES;
        let too_many = listed > MAX_RECORDS && !too_long;
        assert_eq!((answer.number == 4, answer.number == 12), (too_long, too_many), "seed {seed}");
        assert!(matches!(answer.number, 0 | 4 | 12..=15), "seed {seed}: {answer:?}");
        if answer.number == 0 {
            assert_eq!((answer.listed, answer.passed), (listed as u64, passed), "seed {seed}");
        }
        if !too_many && !too_long {
            let both = trace::read(&text, reading).unwrap();
            assert_eq!((both.records.len(), both.passed), (listed, passed), "seed {seed}");
        }
    }
    for (number, least) in [(0, 1_000), (4, 10), (12, 10), (13, 100)] {
        assert!(numbers[number] >= least, "{number} came up {} times", numbers[number]);
    }
}

#[test]
fn with_an_empty_trace_the_other_stays_as_it_is() {
    for Pair { seed, first, second, choice, .. } in (0..PAIRS).map(Pair::from_seed) {
        for own in [first, second] {
            let [(one, text), (other, same)] = [merged(&own, b"", choice), merged(b"", &own, choice)];
            assert_eq!(
                (one.number, one.line, one.column),
                (other.number, other.line, other.column),
                "{seed}"
            );
            if one.number == 0 {
                assert!(text == own && same == own, "seed {seed}");
            }
        }
    }
}

/// Where both are good, or one alone is bad, it does not matter for the answer which comes first.
#[test]
fn exchanged_traces_have_the_same_answer() {
    for Pair { seed, first, second, choice, .. } in (0..PAIRS).map(Pair::from_seed) {
        let (one, _) = merged(&first, &second, choice);
        let (other, _) = merged(&second, &first, choice);
        let both_are_bad = one.which == 1 && other.which == 1;
        let which = if one.which == 0 { 0 } else { 3 - one.which };
        assert!(both_are_bad || other == Merged { which, ..one }, "seed {seed}: {one:?} {other:?}");
    }
}
