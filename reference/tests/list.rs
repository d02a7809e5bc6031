//! Request 7 of document 02, "Show the messages, and why a time moved": each corner with what it comes to.
//! Strict and latencies 0 unless it is said.

mod common;

use common::{LENIENT, STRICT, TRACE_A, TRACE_B, trace};
use reference::chain::{IN_ORDER, Moved, Step};
use reference::generator::flat_table;
use reference::generator::inquiry::Inquiry;
use reference::generator::workload;
use reference::levels::Levels;
use reference::list::{Ends, FEW, Filled, chain, messages};
use reference::{Asked, LATENCIES, MAX_BYTES, MAX_LATENCY, MAX_RECORDS, PROCESSORS, Question, solve};

/// Stands in every place of a list beforehand; no record has it.
const UNTOUCHED: u64 = u64::MAX - 3;
const NO_ENDS: Ends = Ends { send: UNTOUCHED, receive: UNTOUCHED };

/// The answer, and what stands at the start of a list: nothing behind that is touched, and nothing at all
/// by a refusal.
#[track_caller]
fn start_of<T: Copy + PartialEq>(answer: Filled, mut list: Vec<T>, untouched: T) -> (Filled, Vec<T>) {
    let behind = list.split_off(answer.filled as usize);
    assert!(behind.iter().all(|&place| place == untouched), "{answer:?}");
    assert!(answer.number == 0 || answer.filled == 0, "{answer:?}");
    (answer, list)
}

#[track_caller]
fn messages_in(question: Question, places: usize) -> (Filled, Vec<(u64, u64)>) {
    let mut list = vec![NO_ENDS; places];
    let answer = messages(question, &mut list);
    let (answer, list) = start_of(answer, list, NO_ENDS);
    (answer, list.into_iter().map(|Ends { send, receive }| (send, receive)).collect())
}

#[track_caller]
fn chain_in(question: Question, place: u64, places: usize) -> (Filled, Vec<u64>) {
    let mut list = vec![UNTOUCHED; places];
    let answer = chain(question, place, &mut list);
    start_of(answer, list, UNTOUCHED)
}

fn filled(filled: usize) -> Filled {
    Filled { filled: filled as u64, ..Filled::default() }
}

fn refused(number: u64) -> Filled {
    Filled { number, ..Filled::default() }
}

/// The messages, each with its send's place and its receive's, with places enough and more.
#[track_caller]
fn ends(trace: impl AsRef<[u8]>, latencies: &[u32], asked: Asked) -> Vec<(u64, u64)> {
    let (answer, list) = messages_in(Question { trace: trace.as_ref(), latencies, asked }, MAX_RECORDS);
    assert_eq!(answer, filled(list.len()));
    list
}

/// The chains of all records, each as its places.
#[track_caller]
fn chains(trace: impl AsRef<[u8]>, latencies: &[u32], asked: Asked) -> Vec<String> {
    let question = Question { trace: trace.as_ref(), latencies, asked };
    let records = solve(question, MAX_RECORDS).map(|solved| solved.records.len()).unwrap();
    let each = (0..records as u64).map(|place| {
        let (answer, list) = chain_in(question, place, MAX_RECORDS);
        assert_eq!(answer, filled(list.len()));
        list.iter().map(u64::to_string).collect::<Vec<_>>().join(" ")
    });
    each.collect()
}

#[test]
fn trace_a() {
    let fives = flat_table(5);
    assert_eq!(ends(TRACE_A, &fives, STRICT), [(0, 2), (3, 4)]);
    assert_eq!(chains(TRACE_A, &fives, STRICT), ["0", "1", "2 0", "3 2 0", "4 3 2 0"]);
    assert_eq!(chains(TRACE_A, &flat_table(0), STRICT), ["0", "1", "2 0", "3", "4"]);
}

/// All waits of trace B are a ring, and at latencies 0 all of its times are that of its last record.
#[test]
fn trace_b() {
    let none = flat_table(0);
    assert_eq!(ends(TRACE_B, &none, STRICT), [(3, 0), (1, 2)]);
    assert_eq!(chains(TRACE_B, &none, STRICT), ["0 3", "1 0 3", "2 1 0 3", "3"]);
}

/// File order of receives, whatever the order of their sends.
#[test]
fn messages_stand_in_the_order_of_receives() {
    let text = trace(&[
        "-3 -21 T 0 0 3 2 8 1 1",
        "-3 -21 T 0 0 3 2 8 2 1",
        "-4 -52 T 1 0 3 2 8 2 0",
        "-4 -52 T 1 0 3 2 8 1 0",
        "-3 -21 T 0 0 3 2 8 1 1",
    ]);
    assert_eq!(ends(text, &flat_table(0), STRICT), [(1, 2), (0, 3)]);
}

#[test]
fn places_count_listed_records() {
    let text = trace(&["-5 0 T 0 0 0", "-3 -21 T 0 0 3 2 8 1 1", "-5 0 T 0 0 0", "-4 -52 T 1 0 3 2 8 1 0"]);
    assert_eq!(ends(&text, &flat_table(1), LENIENT), [(0, 1)]);
    assert_eq!(chains(&text, &flat_table(1), LENIENT), ["0", "1 0"]);
}

/// "Going by the processor first alone is wrong."
#[test]
fn the_fewest_steps() {
    let text = "\
-3 -21 0.000010 0 0 3 2 8 1 2
-3 -21 0.000010 1 0 3 2 8 1 2
-4 -52 0.000000 2 0 3 2 8 1 0
-4 -52 0.000000 2 0 3 2 8 1 1
";
    assert_eq!(chains(text, &flat_table(0), STRICT), ["0", "1", "2 0", "3 1"]);
    // The second one later, and the first receive is no longer a cause of the second.
    assert_eq!(chains(text.replacen("10 1", "11 1", 1), &flat_table(0), STRICT)[3], "3 1");
    // The first one later, and it is the only one.
    assert_eq!(chains(text.replacen("10 0", "11 0", 1), &flat_table(0), STRICT)[3], "3 2 0");
}

/// Processor 1 has a message from 0 and another record, then a message from 3, which has one from 2 before.
/// Both first ones are sent at 10, and so it is three steps either way.
const EQUAL: &str = "\
-3 -21 0.000010 0 0 3 2 8 1 1
-3 -21 0.000010 2 0 3 2 8 1 3
-4 -52 0.000000 1 0 3 2 8 1 0
0 0 0.000000 1 0 0
-4 -52 0.000000 3 0 3 2 8 1 2
-3 -21 0.000000 3 0 3 2 8 1 1
-4 -52 0.000000 1 0 3 2 8 1 3
";

#[test]
fn of_as_many_steps_the_processors_first() {
    assert_eq!(chains(EQUAL, &flat_table(0), STRICT)[5..], ["5 4 1", "6 3 2 0"]);
    // One record more on processor 1, and the way by the send is the shorter one.
    let longer = EQUAL.replacen("0 0 0.000000 1 0 0\n", &"0 0 0.000000 1 0 0\n".repeat(2), 1);
    assert_eq!(chains(longer, &flat_table(0), STRICT)[7], "7 6 5 1");
    // One fewer, and the other is shorter by one.
    let shorter = EQUAL.replacen("0 0 0.000000 1 0 0\n", "", 1);
    assert_eq!(chains(shorter, &flat_table(0), STRICT)[5], "5 2 0");
    // A latency on one of the two ways alone.
    let mut latencies = flat_table(0);
    latencies[PROCESSORS * 2 + 3] = 1;
    assert_eq!(chains(EQUAL, &latencies, STRICT)[6], "6 5 4 1");
    latencies[1] = 2;
    assert_eq!(chains(EQUAL, &latencies, STRICT)[6], "6 3 2 0");
}

#[test]
fn an_unmoved_record_is_alone() {
    // It has the time of the record before it and of its send, which are moved.
    let text = "\
-3 -21 0.000010 0 0 3 2 8 1 1
-4 -52 0.000000 1 0 3 2 8 1 0
-3 -21 0.000000 1 0 3 2 8 1 0
-4 -52 0.000010 0 0 3 2 8 1 1
0 0 0.000010 1 0 0
";
    assert_eq!(chains(text, &flat_table(0), STRICT), ["0", "1 0", "2 1 0", "3", "4"]);
    // Under a latency they all move but the first.
    assert_eq!(chains(text, &flat_table(1), STRICT), ["0", "1 0", "2 1 0", "3 2 1 0", "4 2 1 0"]);
}

/// "Where the send is also the record before, both steps are one."
#[test]
fn a_message_to_itself() {
    let text = "\
-3 -21 0.000010 1 0 3 2 8 1 0
-4 -52 0.000000 0 0 3 2 8 1 1
-3 -21 0.000000 0 0 3 2 8 1 0
-4 -52 0.000000 0 0 3 2 8 1 0
";
    assert_eq!(chains(text, &flat_table(0), STRICT)[3], "3 2 1 0");
    assert_eq!(chains(text, &flat_table(3), STRICT)[3], "3 2 1 0");
    assert_eq!(ends(text, &flat_table(3), STRICT), [(0, 1), (2, 3)]);
}

#[test]
fn times_at_both_ends() {
    let text = "-3 -21 -999999999.999999 0 0 3 2 8 1 1\n-4 -52 -999999999.999999 1 0 3 2 8 1 0\n";
    assert_eq!(chains(text, &flat_table(MAX_LATENCY), STRICT), ["0", "1 0"]);
    let text = "-3 -21 999999999.999998 0 0 3 2 8 1 1\n-4 -52 0.000000 1 0 3 2 8 1 0\n";
    assert_eq!(chains(text, &flat_table(1), STRICT), ["0", "1 0"]);
}

#[test]
fn no_messages() {
    for (text, asked) in [("", STRICT), ("0 0 0.000000 0 0 0\n", STRICT), ("-5 0 0.000000 0 0 0\n", LENIENT)]
    {
        for places in [0, 1, 7] {
            let question = Question { trace: text.as_bytes(), latencies: &flat_table(0), asked };
            assert_eq!(messages_in(question, places), (filled(0), vec![]));
        }
    }
}

#[test]
fn lists_that_fit_and_lists_that_do_not() {
    let latencies = &flat_table(5);
    let question = Question { trace: TRACE_A.as_bytes(), latencies, asked: STRICT };
    for places in 0..5 {
        let expected = if places < 2 { (refused(16), vec![]) } else { (filled(2), vec![(0, 2), (3, 4)]) };
        assert_eq!(messages_in(question, places), expected);
    }
    for places in 0..7 {
        let expected = if places < 4 { (refused(16), vec![]) } else { (filled(4), vec![4, 3, 2, 0]) };
        assert_eq!(chain_in(question, 4, places), expected);
    }
    // One that has not moved needs one place.
    assert_eq!(chain_in(question, 0, 0), (refused(16), vec![]));
    assert_eq!(chain_in(question, 0, 1), (filled(1), vec![0]));
}

#[test]
fn places_of_no_record() {
    let latencies = &flat_table(5);
    let question = Question { trace: TRACE_A.as_bytes(), latencies, asked: STRICT };
    for place in [5, 6, 1 << 16, 1 << 32, u64::MAX] {
        for places in [0, 1, 9] {
            assert_eq!(chain_in(question, place, places), (refused(22), vec![]));
        }
    }
    assert_eq!(chain_in(Question { trace: b"", ..question }, 0, 1), (refused(22), vec![]));
    let passed = Question { trace: b"-5 0 0.000000 0 0 0\n", asked: LENIENT, ..question };
    assert_eq!(chain_in(passed, 0, 1), (refused(22), vec![]));
}

/// Every refusal of judging, before 22 and before 16.
#[test]
fn what_judging_refuses() {
    let long = [b'\n'; MAX_BYTES + 1];
    let many = "0 0 0.000000 0 0 0\n".repeat(MAX_RECORDS + 1);
    let none = flat_table(0);
    let mut one_way = none.clone();
    one_way[1] = 1;
    let expecting = Asked::expecting(1, Levels { picl: 1, user: 1, trace: 1 });
    // The trace, the table and what is asked; number, line and column.
    type Case<'a> = (&'a [u8], &'a [u32], Asked, [u64; 3]);
    let cases: [Case; 17] = [
        (b"x", &[], Asked::choice_alone(3), [1, 0, 0]),
        (b"x", &[], Asked { levels: 2, ..STRICT }, [1, 0, 0]),
        (b"x", &none[1..], STRICT, [2, 0, 0]),
        (b"x", &[MAX_LATENCY + 1; LATENCIES], STRICT, [3, 0, 0]),
        (&long, &none, STRICT, [4, 0, 0]),
        (b"0 0 0.000000 0 0 0\nx\n", &none, STRICT, [5, 2, 2]),
        (b"0 0 -0.000000 0 0 0\n", &none, STRICT, [6, 1, 5]),
        (b"-5 0 0.000000 0 0 0\n", &none, STRICT, [7, 1, 1]),
        (b"0 -56 0.000000 0 0 0\n", &none, LENIENT, [8, 1, 3]),
        (b"0 0 0.000000 64 0 0\n", &none, STRICT, [9, 1, 14]),
        (b"-3 -21 0.000000 0 0 0\n", &none, STRICT, [10, 1, 21]),
        (b"0 0 0.000001 0 0 0\n0 0 0.000000 0 0 0\n", &none, STRICT, [11, 2, 0]),
        (many.as_bytes(), &none, STRICT, [12, 2_049, 0]),
        (b"-4 -52 0.000000 1 0 3 2 8 1 0\n", &none, STRICT, [13, 1, 0]),
        (b"-3 -21 0.000000 0 0 3 2 7 1 1\n-4 -52 0.000000 1 0 3 2 8 1 0\n", &none, STRICT, [14, 2, 0]),
        (TRACE_B.as_bytes(), &one_way, STRICT, [15, 0, 0]),
        (TRACE_A.as_bytes(), &none, expecting, [17, 5, 0]),
    ];
    for (trace, latencies, asked, [number, line, column]) in cases {
        let question = Question { trace, latencies, asked };
        let expected = Filled { number, line, column, filled: 0 };
        for places in [0, 1, 9] {
            assert_eq!(messages_in(question, places), (expected, vec![]));
            for place in [0, u64::MAX] {
                assert_eq!(chain_in(question, place, places), (expected, vec![]));
            }
        }
    }
}

/// What the benchmark runs on.
#[test]
fn the_longest_lists() {
    let [listed, chained] = workload::lists();
    assert_eq!(ends(&listed.trace, &listed.latencies, listed.asked).len(), MAX_RECORDS / 2);
    let question = Question { trace: &chained.trace, latencies: &chained.latencies, asked: chained.asked };
    assert_eq!(solve(question, MAX_RECORDS).map(|solved| solved.records.len()).ok(), Some(MAX_RECORDS));
    let (answer, list) = chain_in(question, MAX_RECORDS as u64 - 1, MAX_RECORDS);
    assert_eq!(answer, filled(2_001));
    assert!(list.is_sorted_by(|one, other| one > other));
}

/// Accepted traces among the first inquiries.
fn accepted(inquiries: u64) -> impl Iterator<Item = Moved> {
    (0..inquiries).map(Inquiry::from_seed).filter_map(|inquiry| {
        let solved = solve(inquiry.question(), MAX_RECORDS).ok()?;
        Some(Moved::of(&solved))
    })
}

/// What looks near the asked record first comes to what is first of all ways.
#[test]
fn both_ways_come_to_the_same_chain() {
    let mut tied = 0;
    for moved in accepted(5_000).filter(|moved| moved.times.len() <= FEW + 2) {
        for place in 0..moved.times.len() {
            let nearest = moved.nearest(place, IN_ORDER);
            assert_eq!(nearest, moved.of_all(place), "{place} of {moved:?}");
            tied += usize::from(nearest != moved.nearest(place, [Step::Send, Step::Processor]));
        }
    }
    assert!(tied > 100, "{tied}");
}

/// What the request says of every chain, but for which one of several it is.
#[test]
fn what_is_true_of_every_chain() {
    let (mut longest, mut gaps) = (0, 0);
    for moved in accepted(3_000) {
        for place in 0..moved.times.len().min(100) {
            let chain = moved.nearest(place, IN_ORDER).unwrap();
            longest = longest.max(chain.len());
            assert_eq!(chain[0], place);
            let mut waited = 0;
            for step in chain.windows(2) {
                assert!(!moved.is_at_original(step[0]));
                let tight = |kind: &Step| moved.tight(step[0], *kind) == Some(step[1]);
                let kind = IN_ORDER.into_iter().find(tight).unwrap();
                let (_, wait) = moved.step(step[0], kind).unwrap();
                waited += wait;
                gaps += usize::from(kind == Step::Processor && wait > 0);
            }
            let last = chain[chain.len() - 1];
            assert!(moved.is_at_original(last));
            assert_eq!(moved.floors[last].original + waited, moved.times[place]);
            let mut once = chain.clone();
            once.sort_unstable();
            once.dedup();
            assert_eq!(once.len(), chain.len());
        }
    }
    assert!(longest > 20 && gaps > 1_000, "{longest} {gaps}");
}
