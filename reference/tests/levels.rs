//! Request 1 of document 02, "Say which flags the collector really had": each corner with what it comes to.
//! Strict and latencies 0 unless it is said.

mod common;

use common::{LENIENT, STRICT, TRACE_A, TRACE_B, judged, number, trace};
use reference::generator::flat_table;
use reference::levels::Levels;
use reference::{Answer, Asked, Inputs, LATENCIES, MAX_BYTES, MAX_RECORDS, judge};

const ONES: Levels = Levels { picl: 1, user: 1, trace: 1 };
/// Three that differ, so that their order tells.
const ORDERED: Levels = Levels { picl: 4, user: 2, trace: 0 };

/// A mark of processor 0 that is as expected, and one that differs.
const GOOD: &str = "-2 -904 T 0 0 3 2 1 1 1";
const BAD: &str = "-2 -904 T 0 0 3 2 1 1 0";

/// Number and line where three ones are expected.
fn ones(lines: &[&str]) -> (u64, u64) {
    number(trace(lines), Asked::expecting(1, ONES))
}

// "1 Levels" 1: the last mark that counts.

#[test]
fn a_mark_that_does_not_count_is_as_if_it_were_not_there() {
    for mark in [
        "-2 -904 T 0 0 0",
        "-2 -904 T 0 0 1 2 1",
        "-2 -904 T 0 0 2 2 1 1",
        "-2 -904 T 0 0 4 2 1 1 0 0",
        "-2 -904 T 0 0 4 2 1 1 1 1",
        "-2 -904 T 0 0 3 5 T T T",
        "-2 -904 T 0 0 3 5 1.000000 1.000000 1.000000",
        "-2 -904 T 0 0 3 5 0.000001 0.000001 0.000001",
    ] {
        assert_eq!(ones(&[GOOD, mark]), (0, 0), "{mark}");
        assert_eq!(ones(&[mark, GOOD]), (0, 0), "{mark}");
        assert_eq!(ones(&[mark]), (17, 1), "{mark}");
        assert_eq!(ones(&[BAD, mark]), (17, 2), "{mark}");
    }
}

#[test]
fn the_last_mark_decides() {
    assert_eq!(ones(&[GOOD]), (0, 0));
    assert_eq!(ones(&[GOOD, GOOD]), (0, 0));
    assert_eq!(ones(&[BAD, GOOD]), (0, 0));
    assert_eq!(ones(&[GOOD, BAD]), (17, 2));
    assert_eq!(ones(&[GOOD, BAD, GOOD]), (0, 0));
    assert_eq!(ones(&[GOOD, BAD, "-2 -904 T 0 0 0"]), (17, 3));
    assert_eq!(ones(&["-3 5 T 0 0 0", "-3 5 T 0 0 0", GOOD]), (0, 0));
    assert_eq!(ones(&["-3 5 T 0 0 0"]), (17, 1));
}

#[test]
fn each_of_the_three_has_its_place() {
    for (data, expected) in [
        ("4 2 0", (0, 0)),
        ("4 2 1", (17, 1)),
        ("4 1 0", (17, 1)),
        ("3 2 0", (17, 1)),
        ("0 2 4", (17, 1)),
        ("2 4 0", (17, 1)),
        ("4 0 2", (17, 1)),
    ] {
        let mark = format!("-2 -904 T 0 0 3 2 {data}");
        assert_eq!(number(trace(&[&mark]), Asked::expecting(1, ORDERED)), expected, "{data}");
    }
}

// "1 Levels" 2: the line, and the smallest processor.

#[test]
fn the_line_is_that_of_the_last_listed_record() {
    assert_eq!(ones(&[GOOD, BAD, "-3 5 T 0 0 0", "-3 5 T 1 0 0"]), (17, 3));
    for last in ["0 0 T 0 0 0", "-4 -21 T 0 0 0", "-3 -21 T 0 0 3 2 8 1 0", "-3 -904 T 0 0 0", BAD] {
        assert_eq!(ones(&[BAD, last]), (17, 2), "{last}");
        assert_eq!(ones(&[last, "-2 -904 T 1 0 3 2 1 1 1"]), (17, 1), "{last}");
    }
}

#[test]
fn the_smallest_processor_decides() {
    let [zero, one, last] = ["-3 5 T 0 0 0", "-3 5 T 1 0 0", "-3 5 T 63 0 0"];
    assert_eq!(ones(&[one, zero]), (17, 2));
    assert_eq!(ones(&[last, one]), (17, 2));
    assert_eq!(ones(&[last, one, last]), (17, 2));
    assert_eq!(ones(&[GOOD, one, zero, last]), (17, 2));
    assert_eq!(ones(&[GOOD, "-2 -904 T 1 0 3 2 1 1 1", one, zero, last]), (17, 5));
    assert_eq!(ones(&[GOOD, "-2 -904 T 1 0 3 2 1 1 1", "-2 -904 T 63 0 3 2 1 1 1"]), (0, 0));
    assert_eq!(ones(&[GOOD, "-2 -904 T 63 0 3 2 1 1 2", "-2 -904 T 10 0 3 2 1 2 1"]), (17, 3));
}

#[test]
fn lines_passed_over_are_no_listed_records() {
    let lenient = |lines: &[&str]| number(trace(lines), Asked::expecting(2, ONES));
    // A processor that occurs in them alone is not asked.
    assert_eq!(lenient(&["-5 5 T 0 0 0"]), (0, 0));
    assert_eq!(lenient(&["-5 5 T 0 0 0", "-2 -904 T 1 0 3 2 1 1 1"]), (0, 0));
    assert_eq!(lenient(&[BAD, "-5 5 T 0 0 0", "-2 -905 T 0 0 3 2 1 1 1"]), (17, 1));
    assert_eq!(lenient(&[GOOD, "-5 -904 T 0 0 3 2 0 0 0", "-2 -905 T 0 0 3 2 0 0 0"]), (0, 0));
    assert_eq!(lenient(&["-5 -904 T 0 0 3 2 1 1 1", "-3 5 T 0 0 0"]), (17, 2));
}

// "1 Levels" 3: which records count.

#[test]
fn only_marks_of_904_count() {
    for start in ["-3 -904", "-4 -904", "0 -904", "-2 -903", "-2 -901", "-2 -914", "-2 904", "-2 -12"] {
        let alike = |data: &str| format!("{start} T 0 0 3 2 {data}");
        assert_eq!(ones(&[&alike("1 1 1")]), (17, 1), "{start}");
        assert_eq!(ones(&[BAD, &alike("1 1 1")]), (17, 2), "{start}");
        assert_eq!(ones(&[GOOD, &alike("1 1 0")]), (0, 0), "{start}");
    }
}

// "1 Levels" 4: which numbers may be expected.

#[test]
fn the_expected_numbers_may_be_any() {
    for level in [0, -1, 999_999_999, -999_999_999] {
        let mark = format!("-2 -904 T 0 0 3 2 {level} 1 1");
        let expected = |picl| Asked::expecting(1, Levels { picl, ..ONES });
        assert_eq!(number(trace(&[&mark]), expected(level)), (0, 0), "{level}");
        for high_bits in [1 << 31, 1 << 32, -(1 << 31), -(1 << 32), 1 << 62, i64::MIN] {
            let beyond = level.wrapping_add(high_bits);
            assert_eq!(number(trace(&[&mark]), expected(beyond)), (17, 1), "{beyond}");
        }
    }
    for beyond in [i64::MAX, i64::MIN, 1_000_000_000, -1_000_000_000] {
        for levels in [
            Levels { picl: beyond, ..ONES },
            Levels { user: beyond, ..ONES },
            Levels { trace: beyond, ..ONES },
        ] {
            assert_eq!(number(trace(&[GOOD]), Asked::expecting(1, levels)), (17, 1), "{levels:?}");
            assert_eq!(number("", Asked::expecting(1, levels)), (0, 0), "{levels:?}");
        }
    }
}

// "1 Levels" 5: where 17 stands.

#[test]
fn before_13_to_16() {
    let receive = "-4 -52 T 1 0 3 2 8 1 0";
    let send = "-3 -21 T 0 0 3 2 7 1 1";
    assert_eq!(ones(&[receive, "-3 5 T 2 0 0"]), (17, 1));
    assert_eq!(ones(&[receive, "-3 5 T 0 0 0"]), (17, 2));
    assert_eq!(ones(&[receive, send]), (17, 2));
    let marks = ["-2 -904 T 1 0 3 2 1 1 1", GOOD];
    assert_eq!(ones(&[receive, marks[0], marks[1]]), (13, 1));
    assert_eq!(ones(&[receive, send, marks[0], marks[1]]), (14, 1));
    assert_eq!(judged(TRACE_B, &flat_table(1), STRICT).0.number, 15);
    assert_eq!(judged(TRACE_B, &flat_table(1), Asked::expecting(1, ONES)).0.number, 17);
    let no_room = |asked| {
        let (latencies, mut times) = (flat_table(5), vec![0; MAX_RECORDS]);
        let trace = TRACE_A.as_bytes();
        judge(Inputs { trace, latencies: &latencies, asked, times: &mut times, wanted: true, room: &mut [] })
    };
    assert_eq!(no_room(STRICT).number, 16);
    assert_eq!(no_room(Asked::expecting(1, ONES)).number, 17);
}

#[test]
fn after_every_bad_line() {
    assert_eq!(ones(&["-3 5 T 0 0 0", "x^"]), (5, 2));
    assert_eq!(ones(&["-3 5 T 0 0 0", "-3 5 ^1 0 0 0"]), (6, 2));
    assert_eq!(ones(&[BAD, "^-5 5 T 0 0 0"]), (7, 2));
    assert_eq!(ones(&[BAD, "-2 ^-62 T 0 0 0"]), (8, 2));
    assert_eq!(ones(&[BAD, "-2 -904 T ^64 0 3 2 1 1 1"]), (9, 2));
    assert_eq!(ones(&[BAD, "-3 -21 T 0 0 ^0"]), (10, 2));
    assert_eq!(ones(&[BAD, "-2 -904 -0.000001 0 0 3 2 1 1 1"]), (11, 2));
    assert_eq!(ones(&[BAD; MAX_RECORDS]), (17, 2_048));
    assert_eq!(ones(&[BAD; MAX_RECORDS + 1]), (12, 2_049));
    // A -904 mark has to be good in form, as every record has.
    assert_eq!(ones(&["-2 -904 T 0 0 3 2 1 1^"]), (5, 1));
    assert_eq!(ones(&["-2 -904 T 0 0 3 2 1 1 ^01"]), (5, 1));
}

#[test]
fn an_empty_trace_is_accepted() {
    let (answer, times) = judged("", &flat_table(0), Asked::expecting(1, ONES));
    assert_eq!(answer, Answer { verdict: 3, ..Answer::default() });
    assert!(times.is_empty());
}

// "The whole" 1 and 2: the switch, and the numbers of levels that are off.

#[test]
fn the_order_of_1_to_4_with_the_switch() {
    let long = vec![b'x'; MAX_BYTES + 1];
    let number_of = |choice, levels, latencies: &[u32], times: usize, trace: &[u8]| {
        let mut times = vec![0; times];
        let asked = Asked { levels, ..Asked::expecting(choice, ONES) };
        judge(Inputs { trace, latencies, asked, times: &mut times, wanted: true, room: &mut [] }).number
    };
    for switch in [2, 3, 256, 257, 1 << 31, u32::MAX] {
        assert_eq!(number_of(1, switch, &[], 0, &long), 1);
        assert_eq!(number_of(2, switch, &flat_table(0), 0, b""), 1);
        assert_eq!(number_of(2, switch, &flat_table(0), MAX_RECORDS, b""), 1);
        assert_eq!(number_of(3, switch, &flat_table(0), MAX_RECORDS, b""), 1);
    }
    for switch in [0, 1] {
        assert_eq!(number_of(0, switch, &[], 0, &long), 1);
        assert_eq!(number_of(1, switch, &[0; LATENCIES - 1], MAX_RECORDS, &long), 2);
        assert_eq!(number_of(1, switch, &flat_table(0), MAX_RECORDS + 1, &long), 2);
        assert_eq!(number_of(1, switch, &flat_table(u32::MAX), MAX_RECORDS, &long), 3);
        assert_eq!(number_of(1, switch, &flat_table(0), MAX_RECORDS, &long), 4);
        assert_eq!(number_of(1, switch, &flat_table(0), MAX_RECORDS, b"x"), 5);
    }
}

#[test]
fn numbers_that_are_off_are_not_looked_at() {
    for (picl, user, trace) in [(0, 0, 0), (1, 1, 1), (i64::MIN, i64::MAX, -7), (1 << 32, 5, 1_000_000_000)] {
        let asked = Asked { picl, user, trace, ..STRICT };
        assert_eq!(judged(TRACE_A, &flat_table(5), asked), judged(TRACE_A, &flat_table(5), STRICT));
        assert_eq!(number(self::trace(&[GOOD, BAD, "-3 5 T 1 0 0"]), asked), (0, 0));
    }
}

// A trace that 17 does not refuse is judged as before, and one that it does leaves everything untouched.

/// Trace A with a mark of each processor.
fn marked_a() -> String {
    let marks = ["-2 -904 T 0 0 3 2 1 1 1", "-2 -904 T 1 0 3 2 1 1 1"];
    trace(&marks) + TRACE_A
}

/// The answer, the times and the room, all lent places.
fn everything(trace: &str, asked: Asked) -> (Answer, Vec<i64>, Vec<u8>) {
    let (mut times, mut room) = (vec![-7; MAX_RECORDS], vec![b'#'; 1_000]);
    let answer = judge(Inputs {
        trace: trace.as_bytes(),
        latencies: &flat_table(5),
        asked,
        times: &mut times,
        wanted: true,
        room: &mut room,
    });
    (answer, times, room)
}

#[test]
fn levels_that_are_met_change_nothing() {
    let (expected, trace) = (Asked::expecting(2, ONES), marked_a());
    assert_eq!(everything(&trace, expected), everything(&trace, LENIENT));
    let (answer, _, room) = everything(&trace, expected);
    assert_eq!((answer.number, answer.verdict, answer.listed), (0, 2, 7));
    // The written trace read again, under the same four numbers.
    let written = str::from_utf8(&room[..answer.written as usize]).unwrap();
    let (again, _, same_room) = everything(written, expected);
    assert_eq!((again.number, again.verdict, again.rounds), (0, 1, 0));
    assert_eq!(same_room, room);
}

#[test]
fn refusal_17_touches_nothing() {
    let (answer, times, room) = everything(&marked_a(), Asked::expecting(2, ORDERED));
    assert_eq!(answer, Answer { number: 17, line: 7, ..Answer::default() });
    assert!(times.iter().all(|&time| time == -7));
    assert!(room.iter().all(|&byte| byte == b'#'));
}
