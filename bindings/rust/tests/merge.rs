//! Two traces merged, one call for each refusal, and what is said of it.

use cantuvesh::Refusal::{self, *};
use cantuvesh::{Choice, Refused, TIMES, TRACE_LIMIT, Which, merge, raw};
use std::mem::{offset_of, size_of};
use std::num::NonZero;

const TRACE_A: &[u8] = include_bytes!("../../../samples/a.picl");

/// Stands in every byte of the room beforehand; in no trace here.
const UNTOUCHED: u8 = b'?';

/// The answer, and what it has written at the start of a room of so many bytes; no other byte is touched.
fn into_room(first: &[u8], second: &[u8], choice: Choice, room: usize) -> (Result<usize, Refused>, Vec<u8>) {
    let mut room = vec![UNTOUCHED; room];
    let answer = merge(first, second, choice, &mut room);
    let behind = room.split_off(answer.unwrap_or(0));
    assert!(behind.iter().all(|&byte| byte == UNTOUCHED));
    (answer, room)
}

/// The merged trace under strict, with more room than it needs.
fn merged(first: &[u8], second: &[u8]) -> Vec<u8> {
    let needed = first.len() + second.len();
    let (answer, text) = into_room(first, second, Choice::Strict, needed + 5);
    assert_eq!(answer, Ok(needed));
    text
}

/// Reason, trace, line and column, 0 where there is none, with more room than is needed.
fn refused(first: &[u8], second: &[u8], choice: Choice) -> (Refusal, u64, u64, u64) {
    let (answer, _) = into_room(first, second, choice, first.len() + second.len() + 5);
    let Refused { refusal, which, line, column } = answer.unwrap_err();
    let number = |place: Option<NonZero<u64>>| place.map_or(0, NonZero::get);
    (refusal, which.map_or(0, |which| which as u64), number(line), number(column))
}

/// Those lines of trace A that its first node, or its second, would have written.
fn node(processor: u8) -> Vec<u8> {
    let own = |line: &&[u8]| line.split(|&byte| byte == b' ').nth(3) == Some(&[processor]);
    TRACE_A.split_inclusive(|&byte| byte == b'\n').filter(own).collect::<Vec<_>>().concat()
}

#[test]
fn trace_a_of_two_nodes() {
    let expected = b"\
-4 -52 0.000009 1 0 3 2 8 1 0
-3 -21 0.000010 0 0 3 2 8 1 1
-3 -21 0.000011 1 0 3 2 8 2 0
-4 -21 0.000012 0 0 0
-4 -51 0.000013 0 0 3 2 8 2 1
";
    assert_eq!(merged(&node(b'0'), &node(b'1')), expected);
    assert_eq!(merged(&node(b'1'), &node(b'0')), expected);
}

#[test]
fn the_first_traces_lines_where_times_are_equal() {
    let [zero, one] = [&b"0 0 0.000000 0 0 0\n"[..], b"0 0 0.000000 1 0 0\n"];
    assert_eq!(merged(zero, one), [zero, one].concat());
    assert_eq!(merged(one, zero), [one, zero].concat());
}

#[test]
fn times_are_compared_as_numbers_and_at_the_heads_alone() {
    let [two, ten] = [&b"0 0 2.000000 0 0 0\n"[..], b"0 0 10.000000 1 0 0\n"];
    assert_eq!(merged(ten, two), [two, ten].concat());
    let late = &b"-5 0 11.000000 0 0 0\n"[..];
    let (answer, text) = into_room(&[late, two].concat(), ten, Choice::Lenient, 100);
    assert_eq!((answer.is_ok(), text), (true, [ten, late, two].concat()));
}

#[test]
fn empty_traces() {
    assert_eq!(into_room(b"", b"", Choice::Strict, 0), (Ok(0), vec![]));
    assert_eq!(merged(TRACE_A, b""), TRACE_A);
    assert_eq!(merged(b"", TRACE_A), TRACE_A);
}

#[test]
fn each_trace_has_limits_of_its_own() {
    let [zero, one] = [b"0 0 0.000000 0 0 0\n", b"0 0 0.000000 1 0 0\n"].map(|line| line.repeat(TIMES));
    assert_eq!(merged(&zero, &one), [zero, one].concat());
}

#[test]
fn refusals_of_either_trace() {
    let good = b"0 0 0.000000 0 0 0\n";
    for (bad, refusal, line, column) in [
        (&[b'\n'; TRACE_LIMIT + 1][..], TraceTooLong, 0, 0),
        (b"0 0 0.000000 1 0 0\nx\n", Form, 2, 2),
        (b"0 0 -0.000000 1 0 0\n", Timestamp, 1, 5),
        (b"-5 0 0.000000 1 0 0\n", Unlisted, 1, 1),
        (b"0 -62 0.000000 1 0 0\n", NotHandled, 1, 3),
        (b"0 0 0.000000 64 0 0\n", Place, 1, 14),
        (b"-3 -21 0.000000 1 0 0\n", MessageData, 1, 21),
        (b"0 0 0.000001 1 0 0\n0 0 0.000000 1 0 0\n", Order, 2, 0),
        (&b"0 0 0.000000 1 0 0\n".repeat(TIMES + 1), TooManyRecords, 2_049, 0),
    ] {
        assert_eq!(refused(bad, good, Choice::Strict), (refusal, 1, line, column));
        assert_eq!(refused(good, bad, Choice::Strict), (refusal, 2, line, column));
        assert_eq!(refused(bad, b"x\n", Choice::Strict), (refusal, 1, line, column));
    }
}

#[test]
fn refusals_of_both() {
    let [listed, passed] = [&b"0 0 0.000000 7 0 0\n"[..], b"-5 0 0.000000 7 0 0\n"];
    assert_eq!(refused(listed, listed, Choice::Strict), (SharedProcessor, 0, 0, 0));
    assert!(into_room(listed, passed, Choice::Lenient, 100).0.is_ok());
    assert!(into_room(passed, passed, Choice::Lenient, 100).0.is_ok());
    let in_room = |room| into_room(TRACE_A, b"0 0 0.000000 7 0 0\n", Choice::Strict, room).0;
    assert_eq!(in_room(TRACE_A.len() + 19), Ok(TRACE_A.len() + 19));
    let short = in_room(TRACE_A.len() + 18).unwrap_err();
    assert_eq!((short.refusal, short.which, short.line), (RoomTooShort, None, None));
}

#[test]
fn a_refusal_says_its_trace() {
    let of_a_line = into_room(b"", b"0 0 0.000000 0 0 x\n", Choice::Strict, 0).0.unwrap_err();
    let form = "the form of the line, or of a field of it other than the timestamp, is bad (bad data too)";
    assert_eq!(of_a_line.to_string(), format!("refused 5 trace 2 line 1 column 18: {form}"));
    assert_eq!(of_a_line.which, Some(Which::Second));
    let too_long = into_room(&[b'\n'; TRACE_LIMIT + 1], b"", Choice::Strict, 0).0.unwrap_err();
    assert_eq!(too_long.to_string(), "refused 4 trace 1: the trace is longer than 65,536 bytes");
    let of_both = into_room(TRACE_A, TRACE_A, Choice::Strict, 0).0.unwrap_err();
    let shared = "both of the traces to be merged hold a listed record of the same processor";
    assert_eq!(of_both.to_string(), format!("refused 18: {shared}"));
}

#[test]
fn raw_gives_the_numbers_as_they_are() {
    let none = raw::Merged { number: 0, which: 0, line: 0, column: 0, written: 0 };
    let call =
        |first, second, choice, room: usize| raw::LINKED.merge(first, second, choice, &mut vec![0; room]);
    for choice in [0, 3, 257, u32::MAX] {
        let refused = raw::Merged { number: Refusal::Choice.number(), ..none };
        assert_eq!(call(b"x", b"", choice, 0), refused);
    }
    assert_eq!(call(b"", b"x\n", 1, 0), raw::Merged { number: 5, which: 2, line: 1, column: 2, ..none });
    assert_eq!(call(TRACE_A, TRACE_A, 1, 0), raw::Merged { number: 18, ..none });
    assert_eq!(call(TRACE_A, b"", 1, 141), raw::Merged { number: 16, ..none });
    assert_eq!(call(TRACE_A, b"", 1, 142), raw::Merged { written: 142, ..none });
}

/// As a C compiler lays out `struct cantuvesh_merged`.
#[test]
fn an_answer_has_the_places_of_c() {
    use raw::Merged;
    let places = [
        offset_of!(Merged, number),
        offset_of!(Merged, which),
        offset_of!(Merged, line),
        offset_of!(Merged, column),
        offset_of!(Merged, written),
    ];
    assert_eq!((places, size_of::<Merged>()), ([0, 8, 16, 24, 32], 40));
}
