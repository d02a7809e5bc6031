//! The messages of a trace and the chains of its records, the refusals of both, and what is said of them.

use cantuvesh::Refusal::{self, *};
use cantuvesh::{
    Asked, Choice, LATENCIES, LATENCY_LIMIT, Latencies, Levels, Message, Refused, SHARE_LIMIT, Statistics,
    TIMES, TRACE_LIMIT, chain, judge, messages, raw,
};
use std::mem::{align_of, offset_of, size_of};
use std::num::NonZero;

const TRACE_A: &[u8] = include_bytes!("../../../samples/a.picl");
const TRACE_B: &[u8] = include_bytes!("../../../samples/b.picl");
const SILENT: &[u8] = include_bytes!("../../../samples/silent.picl");
const POSTED: &[u8] = include_bytes!("../../../samples/posted.picl");
const GAPS: &[u8] = include_bytes!("../../../samples/gaps.picl");

const STRICT: Asked =
    Asked { choice: Choice::Strict, levels: Levels::Off, statistics: Statistics::Off, share: 0 };
const LENIENT: Asked = Asked { choice: Choice::Lenient, ..STRICT };

/// Stands in every lent place beforehand; no record has it.
const UNTOUCHED: u64 = u64::MAX - 7;
const NO_MESSAGE: Message = Message { send: UNTOUCHED, receive: UNTOUCHED };

/// What stands at the start of a list, of which no other place is touched; or the refusal, if none is.
fn start_of<T: Copy + PartialEq>(
    answer: Result<usize, Refused>,
    mut list: Vec<T>,
    untouched: T,
) -> Result<Vec<T>, Refused> {
    let behind = list.split_off(answer.unwrap_or(0));
    assert!(behind.iter().all(|&place| place == untouched));
    answer.map(|_| list)
}

/// The messages, in a list of so many places: each with its send's place and its receive's.
fn listed(trace: &[u8], latencies: &[u32], asked: Asked, places: usize) -> Result<Vec<(u64, u64)>, Refused> {
    let mut list = vec![NO_MESSAGE; places];
    let answer = messages(trace, latencies, asked, &mut list);
    let filled = start_of(answer, list, NO_MESSAGE)?;
    Ok(filled.into_iter().map(|Message { send, receive }| (send, receive)).collect())
}

/// The chain of a record, in a list of so many places.
fn back_from(
    place: u64,
    trace: &[u8],
    latencies: &[u32],
    asked: Asked,
    places: usize,
) -> Result<Vec<u64>, Refused> {
    let mut list = vec![UNTOUCHED; places];
    let answer = chain(trace, latencies, asked, place, &mut list);
    start_of(answer, list, UNTOUCHED)
}

/// The chains of all records under strict and one latency everywhere.
fn all_chains(trace: &[u8], latency: u32) -> Vec<Vec<u64>> {
    let latencies = Latencies::everywhere(latency);
    let records = judge(trace, &latencies, STRICT, &mut [0; TIMES], None).unwrap().listed;
    (0..records as u64).map(|place| back_from(place, trace, &latencies, STRICT, TIMES).unwrap()).collect()
}

#[test]
fn trace_a() {
    let fives = Latencies::everywhere(5);
    assert_eq!(listed(TRACE_A, &fives, STRICT, 5), Ok(vec![(0, 2), (3, 4)]));
    assert_eq!(all_chains(TRACE_A, 5), [vec![0], vec![1], vec![2, 0], vec![3, 2, 0], vec![4, 3, 2, 0]]);
    assert_eq!(all_chains(TRACE_A, 0), [vec![0], vec![1], vec![2, 0], vec![3], vec![4]]);
}

#[test]
fn sends_may_stand_later_in_the_file() {
    assert_eq!(listed(TRACE_B, &Latencies::everywhere(0), STRICT, 2), Ok(vec![(3, 0), (1, 2)]));
    assert_eq!(all_chains(TRACE_B, 0), [vec![0, 3], vec![1, 0, 3], vec![2, 1, 0, 3], vec![3]]);
}

#[test]
fn messages_may_be_posted_and_finish_later() {
    let fives = Latencies::everywhere(5);
    let list = listed(POSTED, &fives, STRICT, 2).unwrap();
    assert_eq!(list.len(), 2);
    let mut times = [0; TIMES];
    let listed = judge(POSTED, &fives, STRICT, &mut times, None).unwrap().listed as u64;
    for (send, receive) in list {
        assert!(send < listed && receive < listed);
        assert!(times[receive as usize] >= times[send as usize] + 5);
    }
    let last = back_from(listed - 1, POSTED, &fives, STRICT, TIMES).unwrap();
    assert!(last.len() > 1, "{last:?}");
    assert_eq!(last[0], listed - 1);
}

#[test]
fn the_fewest_steps_go_before_the_processors() {
    let trace = b"\
-3 -21 0.000010 0 0 3 2 8 1 2
-3 -21 0.000010 1 0 3 2 8 1 2
-4 -52 0.000000 2 0 3 2 8 1 0
-4 -52 0.000000 2 0 3 2 8 1 1
";
    assert_eq!(all_chains(trace, 0), [vec![0], vec![1], vec![2, 0], vec![3, 1]]);
}

#[test]
fn the_processors_step_goes_before_the_sends() {
    // Three steps either way from the last record: by the two before it, or by its send and the one before
    // that.
    let trace = b"\
-3 -21 0.000010 0 0 3 2 8 1 1
-3 -21 0.000010 2 0 3 2 8 1 3
-4 -52 0.000000 1 0 3 2 8 1 0
0 0 0.000000 1 0 0
-4 -52 0.000000 3 0 3 2 8 1 2
-3 -21 0.000000 3 0 3 2 8 1 1
-4 -52 0.000000 1 0 3 2 8 1 3
";
    assert_eq!(all_chains(trace, 0)[5..], [vec![5, 4, 1], vec![6, 3, 2, 0]]);
}

#[test]
fn an_unmoved_record_is_alone() {
    // The last one has the time of the record before it and of its send.
    let trace = b"\
-3 -21 0.000010 0 0 3 2 8 1 1
0 0 0.000010 1 0 0
-4 -52 0.000010 1 0 3 2 8 1 0
";
    assert_eq!(all_chains(trace, 0), [[0], [1], [2]]);
}

#[test]
fn a_chain_over_gaps_that_are_kept() {
    let fives = Latencies::everywhere(5);
    let at = |share, place, trace: &[u8]| back_from(place, trace, &fives, Asked { share, ..STRICT }, TIMES);
    for share in [0, 500, SHARE_LIMIT] {
        assert_eq!(at(share, 4, TRACE_A), Ok(vec![4, 3, 2, 0]));
        assert_eq!(at(share, 3, GAPS), Ok(vec![3, 2, 1, 0]));
        assert_eq!(listed(GAPS, &fives, Asked { share, ..STRICT }, 1), Ok(vec![(0, 1)]));
    }
    // The last record of processor 2 is 14 by a gap of 8 or by a latency of 4, three steps either way.
    let trace = b"\
-3 -21 0.000010 0 0 3 2 8 1 2
-3 -21 0.000010 1 0 3 2 8 1 3
-4 -52 0.000000 2 0 3 2 8 1 0
-4 -52 0.000000 3 0 3 2 8 1 1
-3 -21 0.000000 3 0 3 2 8 1 2
0 0 0.000000 2 0 0
-4 -52 0.000008 2 0 3 2 8 1 3
";
    let mut latencies = Latencies::everywhere(0);
    latencies[(3, 2)] = 4;
    let last = |share| back_from(6, trace, &latencies, Asked { share, ..STRICT }, TIMES);
    assert_eq!(last(500), Ok(vec![6, 5, 2, 0]));
    assert_eq!(last(499), Ok(vec![6, 4, 3, 1]));
}

#[test]
fn places_count_listed_records() {
    let trace = b"\
-5 0 0.000000 0 0 0
-3 -21 0.000003 0 0 3 2 8 1 0
-5 0 0.000000 0 0 0
-4 -52 0.000003 0 0 3 2 8 1 0
";
    let ones = Latencies::everywhere(1);
    assert_eq!(listed(trace, &ones, LENIENT, 1), Ok(vec![(0, 1)]));
    assert_eq!(back_from(1, trace, &ones, LENIENT, 2), Ok(vec![1, 0]));
}

#[test]
fn no_messages_need_no_list() {
    for trace in [SILENT, b""] {
        for places in [0, 3] {
            assert_eq!(listed(trace, &Latencies::everywhere(5), STRICT, places), Ok(vec![]));
        }
    }
}

#[test]
fn the_longest_lists() {
    let sends = (0..TIMES / 2).map(|_| "-3 -21 0.000001 0 0 3 2 8 1 1\n");
    let receives = (0..TIMES / 2).map(|_| "-4 -52 0.000000 1 0 3 2 8 1 0\n");
    let trace = sends.chain(receives).collect::<String>().into_bytes();
    let half = TIMES as u64 / 2;
    let all: Vec<_> = (0..half).map(|message| (message, half + message)).collect();
    assert_eq!(listed(&trace, &Latencies::everywhere(0), STRICT, TIMES / 2), Ok(all));
    // One message moves all that is behind it.
    let mut trace = b"-3 -21 0.000001 0 0 3 2 8 1 0\n-4 -52 0.000001 0 0 3 2 8 1 0\n".to_vec();
    trace.extend(b"0 0 0.000001 0 0 0\n".repeat(TIMES - 2));
    let last = TIMES as u64 - 1;
    let whole: Vec<u64> = (0..=last).rev().collect();
    let ones = Latencies::everywhere(1);
    assert_eq!(back_from(last, &trace, &ones, STRICT, TIMES), Ok(whole));
    assert_eq!(reason(back_from(last, &trace, &ones, STRICT, TIMES - 1)), (RoomTooShort, 0, 0));
}

/// Reason, line and column, 0 where there is none.
fn reason<T: std::fmt::Debug>(answer: Result<T, Refused>) -> (Refusal, u64, u64) {
    let Refused { refusal, which, line, column } = answer.unwrap_err();
    assert_eq!(which, None);
    (refusal, line.map_or(0, NonZero::get), column.map_or(0, NonZero::get))
}

/// The same of both calls, be the list short or long, and the place whatever it is.
fn refused(trace: &[u8], latencies: &[u32], asked: Asked) -> (Refusal, u64, u64) {
    let expected = reason(listed(trace, latencies, asked, TIMES));
    assert_eq!(reason(listed(trace, latencies, asked, 0)), expected);
    for (place, places) in [(0, TIMES), (0, 0), (u64::MAX, 0), (u64::MAX, 1)] {
        assert_eq!(reason(back_from(place, trace, latencies, asked, places)), expected);
    }
    expected
}

#[test]
fn what_judging_refuses() {
    let none = Latencies::everywhere(0);
    assert_eq!(refused(b"", &[0; LATENCIES - 1], STRICT), (Lengths, 0, 0));
    assert_eq!(refused(b"", &Latencies::everywhere(LATENCY_LIMIT + 1), STRICT), (Latency, 0, 0));
    for (trace, expected) in [
        (&[b'\n'; TRACE_LIMIT + 1][..], (TraceTooLong, 0, 0)),
        (b"0 0 0.000000 0 0 0\nx\n", (Form, 2, 2)),
        (b"0 0 -0.000000 0 0 0\n", (Timestamp, 1, 5)),
        (b"-5 0 0.000000 0 0 0\n", (Unlisted, 1, 1)),
        (b"0 -56 0.000000 0 0 0\n", (NotHandled, 1, 3)),
        (b"0 0 0.000000 64 0 0\n", (Place, 1, 14)),
        (b"-3 -21 0.000000 0 0 0\n", (MessageData, 1, 21)),
        (b"0 0 0.000001 0 0 0\n0 0 0.000000 0 0 0\n", (Order, 2, 0)),
        (&b"0 0 0.000000 0 0 0\n".repeat(TIMES + 1), (TooManyRecords, 2_049, 0)),
        (b"-4 -52 0.000000 1 0 3 2 8 1 0\n", (NoSend, 1, 0)),
        (b"-4 -52 0.000000 1 0 3 2 8 1 0\n-3 -21 0.000000 0 0 3 2 7 1 1\n", (LongReceive, 1, 0)),
    ] {
        assert_eq!(refused(trace, &none, STRICT), expected);
    }
    let mut one_way = none.clone();
    one_way[(0, 1)] = 1;
    assert_eq!(refused(TRACE_B, &one_way, STRICT), (NoTimes, 0, 0));
    let levels = Levels::Expected { picl: 1, user: 1, trace: 1 };
    let asked = Asked { levels, ..STRICT };
    assert_eq!(refused(TRACE_A, &none, asked), (Refusal::Levels, 5, 0));
    assert_eq!(refused(TRACE_B, &none, Asked { share: SHARE_LIMIT, ..STRICT }), (NoTimes, 0, 0));
    assert_eq!(refused(b"x", &none, Asked { share: SHARE_LIMIT + 1, ..STRICT }), (Lengths, 0, 0));
}

#[test]
fn places_and_lists() {
    let fives = Latencies::everywhere(5);
    assert_eq!(reason(listed(TRACE_A, &fives, STRICT, 1)), (RoomTooShort, 0, 0));
    assert_eq!(reason(back_from(4, TRACE_A, &fives, STRICT, 3)), (RoomTooShort, 0, 0));
    assert_eq!(reason(back_from(0, TRACE_A, &fives, STRICT, 0)), (RoomTooShort, 0, 0));
    // A place that is none goes before a list that is too short.
    for place in [5, 6, 1 << 32, u64::MAX] {
        for places in [0, TIMES] {
            assert_eq!(reason(back_from(place, TRACE_A, &fives, STRICT, places)), (NoSuchRecord, 0, 0));
        }
    }
    assert_eq!(reason(back_from(0, b"", &fives, STRICT, TIMES)), (NoSuchRecord, 0, 0));
}

#[test]
fn a_refusal_says_its_number_and_its_sentence() {
    let fives = Latencies::everywhere(5);
    let no_record = back_from(5, TRACE_A, &fives, STRICT, 0).unwrap_err();
    assert_eq!(
        no_record.to_string(),
        "refused 22: there is no such listed record: the place is not below their number, or none stands on \
         the asked line"
    );
    let short = listed(TRACE_A, &fives, STRICT, 0).unwrap_err();
    assert!(short.to_string().starts_with("refused 16: "));
    assert!(short.to_string().ends_with("or the list to be filled is too short"));
    let of_a_line = listed(b"-4 -52 0.000000 1 0 3 2 8 1 0\n", &fives, STRICT, 0).unwrap_err();
    assert_eq!(of_a_line.to_string(), "refused 13 line 1: the receive has no matching send");
}

#[test]
fn raw_gives_the_numbers_as_they_are() {
    let none = raw::Filled { number: 0, line: 0, column: 0, filled: 0 };
    let (picl, user, trace) = (i64::MAX, -7, i64::MIN);
    let off = |choice| raw::Asked { choice, levels: 0, picl, user, trace, statistics: 0, share: 0 };
    let list = |asked, trace, latencies: &[u32], places: usize| {
        raw::LINKED.messages(trace, latencies, asked, &mut vec![NO_MESSAGE; places])
    };
    let back = |asked, trace, latencies: &[u32], place, places: usize| {
        raw::LINKED.chain(trace, latencies, asked, place, &mut vec![UNTOUCHED; places])
    };
    for asked in [off(0), off(3), off(u32::MAX), raw::Asked { levels: 2, ..off(1) }] {
        let refused = raw::Filled { number: 1, ..none };
        assert_eq!((list(asked, b"x", &[], 0), back(asked, b"x", &[], 0, 0)), (refused, refused));
    }
    let short_table = raw::Filled { number: 2, ..none };
    assert_eq!((list(off(1), b"x", &[], 0), back(off(1), b"x", &[], 0, 0)), (short_table, short_table));
    let fives = [5; LATENCIES];
    let of_a_field = raw::Filled { number: 5, line: 1, column: 2, ..none };
    assert_eq!(
        (list(off(1), b"x\n", &fives, 9), back(off(1), b"x\n", &fives, 9, 9)),
        (of_a_field, of_a_field)
    );
    assert_eq!(list(off(1), TRACE_A, &fives, 1), raw::Filled { number: 16, ..none });
    assert_eq!(list(off(1), TRACE_A, &fives, 2), raw::Filled { filled: 2, ..none });
    assert_eq!(back(off(1), TRACE_A, &fives, 5, 0), raw::Filled { number: 22, ..none });
    assert_eq!(back(off(1), TRACE_A, &fives, 4, 3), raw::Filled { number: 16, ..none });
    assert_eq!(back(off(1), TRACE_A, &fives, 4, 4), raw::Filled { filled: 4, ..none });
}

/// As a C compiler lays out `struct cantuvesh_message` and `struct cantuvesh_filled`.
#[test]
fn lists_and_answers_have_the_places_of_c() {
    use raw::Filled;
    let ends = [offset_of!(Message, send), offset_of!(Message, receive)];
    assert_eq!((ends, size_of::<Message>(), align_of::<Message>()), ([0, 8], 16, 8));
    let places = [
        offset_of!(Filled, number),
        offset_of!(Filled, line),
        offset_of!(Filled, column),
        offset_of!(Filled, filled),
    ];
    assert_eq!((places, size_of::<Filled>()), ([0, 8, 16, 24], 32));
}
