//! Where the paper leaves a reader thinking: each corner with what it comes to. Latencies are 0.

mod common;

use common::{LENIENT, STRICT, TRACE_A, judged, number, written};
use reference::generator::record::trace_of;
use reference::generator::{flat_table, shape};
use reference::{Answer, Asked, Inputs, MAX_BYTES, MAX_RECORDS, judge};

/// One line's refusal under lenient reading, 0 if it is taken or passed over. A caret marks the column.
#[track_caller]
fn line(text: &str, expected: u64) {
    let line = if expected == 0 { 0 } else { 1 };
    assert_eq!(number(format!("{text}\n"), LENIENT), (expected, line), "{text:?}");
}

#[test]
fn an_empty_field_is_a_field() {
    line("-3 0 ^ 0 0 0", 6);
    line("^", 5);
    line("^ -3 0 0.000000 0 0 0", 5);
    line("-3 0 0.000000 0 0 0 ^", 5);
    line("-3 0 0.000000 0 0 ^ 0", 5);
}

#[test]
fn the_end_and_the_fields_come_first() {
    line("-3 0 x 0 0^", 5);
    assert_eq!(number("-3 0 x 0 0 0^", LENIENT), (5, 1));
    assert_eq!(number("0 0 0.000000 0 0 0\n-5 0 0.000000 0 0 0^", STRICT), (5, 2));
    line("^x 0 x 0 0 0", 5);
    line("0 0 ^x x 0 0", 6);
}

#[test]
fn what_follows_field_six_comes_after_the_processor() {
    line("-3 0 0.000000 ^64 0 0 ", 9);
    line("-3 0 0.000000 ^64 0 17 2", 9);
    line("-3 0 0.000000 0 0 ^17 2", 5);
    line("-3 0 0.000000 64 0 ^1000", 5);
}

#[test]
fn events_not_handled() {
    line("-3 ^-62 0.000000 0 0 0 junk", 8);
    line("-3 ^-62 0.000000 99 9 7", 8);
    line("-5 -62 0.000000 0 0 0", 0);
    assert_eq!(number("^-5 -62 0.000000 0 0 0\n", STRICT), (7, 1));
    assert_eq!(number("-3 ^-62 0.000000 0 0 0\n", STRICT), (8, 1));
}

#[test]
fn the_end_of_an_unlisted_line() {
    line("-5 0 0.000000 0 0 1 ^", 5);
    line("-5 0 0.000000 0 0 1^", 5);
    line("-5 0 0.000000 0 0 0 ^", 5);
    line("-5 0 0.000000 0 0 0 ^x", 5);
    line("-5 0 0.000000 0 0 ^1\r", 5);
    for end in ["1  ", "1 x ", "1 a  b", "1 \r", "999 x"] {
        line(&format!("-5 0 0.000000 -9 77 {end}"), 0);
    }
    assert_eq!(number("-5 0 0.000000 0 0 1 ^\n", STRICT), (5, 1));
    assert_eq!(number("0 0 1.000000 0 0 0\n-5 0 0.000000 0 0 0\n", LENIENT), (0, 0));
}

#[test]
fn data_of_a_message() {
    line("-3 -21 0.000000 0 0 3 2 8 ^x 1", 5);
    line("-3 -21 0.000000 0 0 3 2 8 1^", 5);
    line("-3 -21 0.000000 0 0 3 ^3 8 1 1", 5);
    line("-3 -21 0.000000 0 0 3 ^02 8 1 1", 5);
    line("-3 -21 0.000000 0 0 ^17 2 8 1 1", 5);
    line("-3 -21 0.000000 0 0 1 5 ^-0.000000", 5);
    line("-3 -21 0.000000 0 0 ^0", 10);
    line("-3 -21 0.000000 0 0 ^2 2 8 1", 10);
    line("-3 -21 0.000000 0 0 ^4 2 8 1 1 1", 10);
    line("-3 -21 0.000000 0 0 3 ^5 0.000008 0.000001 0.000001", 10);
    line("-3 -21 0.000000 0 0 3 2 ^-1 1 1", 10);
    line("-3 -21 0.000000 0 0 3 2 8 1 ^64", 10);
    line("-3 -21 0.000000 0 0 3 2 8 1 ^-1", 10);
    line("-4 -51 0.000000 0 0 ^0", 10);
    line("-4 -52 0.000000 0 0 3 2 8 1 ^64", 10);
    line("-3 -21 0.000000 0 0 3 2 0 -1 63", 0);
}

#[test]
fn records_of_message_events_that_are_none() {
    for start in ["-2 -21", "0 -21", "-4 -21", "-2 -51", "0 -52", "-3 -51", "-3 -52"] {
        line(&format!("{start} 0.000000 0 0 0"), 0);
    }
}

#[test]
fn times_and_their_order() {
    line("0 0 -999999999.999999 0 0 0", 0);
    line("0 0 ^1000000000.000000 0 0 0", 6);
    assert_eq!(number("0 0 0.000001 0 0 0\n0 0 0.000000 0 0 0\n", STRICT), (11, 2));
    assert_eq!(number("0 0 0.000001 0 0 0\n0 0 0.000001 0 0 0\n", STRICT), (0, 0));
    assert_eq!(number("0 0 0.000001 0 0 0\n0 0 0.000000 1 0 0\n", STRICT), (0, 0));
    assert_eq!(number("0 0 -999999999.999999 0 0 0\n-5 0 -5.000000 0 0 0\n", LENIENT), (0, 0));
}

#[test]
fn numbers() {
    for bad in ["", "-", "-0", "00", "01", "+1", "1000000000", "-1000000000", "0000000001", "1.0", "1\r"] {
        line(&format!("0 0 0.000000 0 0 1 2 ^{bad}"), 5);
    }
    for good in ["0", "-1", "999999999", "-999999999"] {
        line(&format!("0 0 0.000000 0 0 1 2 {good}"), 0);
    }
    for bad in
        ["-0.000000", "00.000000", "0.00000", "0.0000000", ".000000", "1", "1.", "-.000001", "1.00000x"]
    {
        line(&format!("0 0 ^{bad} 0 0 0"), 6);
        line(&format!("0 0 0.000000 0 0 1 5 ^{bad}"), 5);
    }
}

#[test]
fn counts() {
    line(&format!("0 0 0.000000 0 0 16 2{}", " 1".repeat(16)), 0);
    line(&format!("0 0 0.000000 0 0 ^17 2{}", " 1".repeat(17)), 5);
    line("-5 0 0.000000 0 0 999 x", 0);
    line("-5 0 0.000000 0 0 ^1000 x", 5);
    line("-5 0 0.000000 0 0 ^-1", 5);
    line("0 0 0.000000 0 0 0 ^2", 5);
    line("0 0 0.000000 0 0 1^", 5);
    line("0 0 0.000000 0 0 1 2^", 5);
}

#[test]
fn the_line_of_record_2049() {
    let full = "0 0 0.000001 0 0 0\n".repeat(MAX_RECORDS);
    let after = |text: &str| number(format!("{full}{text}\n"), LENIENT);
    assert_eq!(after("0 0 0.000001 0 0 0"), (12, 2_049));
    assert_eq!(after("0 0 0.000000 0 0 0"), (11, 2_049));
    assert_eq!(after("-3 -21 0.000001 0 0 ^0"), (10, 2_049));
    assert_eq!(after("0 0 0.000001 0 0 1^"), (5, 2_049));
    assert_eq!(after("0 0 0.000001 ^64 0 0"), (9, 2_049));
    assert_eq!(after("0 ^-62 0.000001 0 0 0"), (8, 2_049));
    assert_eq!(after("-5 0 0.000000 0 0 0"), (0, 0));
}

#[test]
fn messages() {
    // Receives of both events are counted together.
    let trace = "\
-3 -21 0.000001 0 0 3 2 1 -1 1
-3 -21 0.000002 0 0 3 2 2 -1 1
-4 -52 0.000003 1 0 3 2 1 -1 0
-4 -51 0.000004 1 0 3 2 2 -1 0
";
    let (answer, _) = judged(trace, &flat_table(0), STRICT);
    assert_eq!((answer.verdict, answer.matched), (1, 2));
    // A message to oneself, the entry at 64p + p.
    let own = "-3 -21 0.000000 63 0 3 2 8 1 63\n-4 -52 0.000000 63 0 3 2 8 1 63\n";
    let mut latencies = flat_table(0);
    latencies[64 * 63 + 63] = 9;
    assert_eq!(judged(own, &latencies, STRICT).1, [0, 9]);
    // The type -1 is no wildcard.
    let other = "-3 -21 0.000000 0 0 3 2 8 1 0\n-4 -52 0.000000 0 0 3 2 8 -1 0\n";
    assert_eq!(number(other, STRICT), (13, 2));
}

#[test]
fn lines_of_13_and_14() {
    let passed = "-5 0 0.000000 0 0 0\n";
    let receive = "-4 -52 0.000000 1 0 3 2 8 1 0\n";
    let send = "-3 -21 0.000000 0 0 3 2 7 1 1\n";
    assert_eq!(number([passed, receive].concat(), LENIENT), (13, 2));
    assert_eq!(number([passed, receive, send].concat(), LENIENT), (14, 2));
    assert_eq!(number([receive, "x^\n"].concat(), LENIENT), (5, 2));
}

#[test]
fn rounds_take_the_round_before() {
    for records in [1, 2, 3, 10, 999, MAX_RECORDS] {
        let trace = trace_of(&shape::chain(records, 10));
        let (answer, times) = judged(trace, &flat_table(1), STRICT);
        assert_eq!(answer.rounds, records as u64 - 1);
        assert_eq!(times.last(), Some(&(records as i64 / 2)));
    }
}

#[test]
fn verdict_3_carries_its_counts() {
    let (answer, _) = judged("-3 -21 0.000000 0 0 3 2 8 1 1\n".repeat(2), &flat_table(0), STRICT);
    assert_eq!((answer.verdict, answer.listed, answer.unreceived), (3, 2, 2));
}

#[test]
fn a_written_trace_longer_and_shorter() {
    let longer = "-3 -21 10.000000 0 0 3 2 8 1 1\n-4 -52 0.000000 1 0 3 2 8 1 0\n";
    assert_eq!(written(longer, 0), longer.replace(" 0.000000 1", " 10.000000 1").as_bytes());
    let shorter = "-3 -21 0.000000 0 0 3 2 8 1 1\n-4 -52 -1.000000 1 0 3 2 8 1 0\n";
    assert_eq!(written(shorter, 0), shorter.replace("-1.000000", "0.000000").as_bytes());
}

#[test]
fn a_written_trace_too_long_to_be_read_again() {
    let mut trace =
        b"-3 -21 10.000000 0 0 3 2 8 1 1\n-4 -52 0.000000 1 0 3 2 8 1 0\n-5 0 0.000000 0 0 1 ".to_vec();
    trace.resize(MAX_BYTES - 1, b'x');
    trace.push(b'\n');
    let mut times = vec![0; MAX_RECORDS];
    let mut room = vec![0; MAX_BYTES + 1];
    let answer = judge(Inputs {
        trace: &trace,
        latencies: &flat_table(0),
        asked: LENIENT,
        times: &mut times,
        wanted: true,
        room: &mut room,
    });
    assert_eq!((answer.verdict, answer.written), (2, 65_537));
    assert_eq!(number(&room, LENIENT), (4, 0));
}

#[test]
fn the_order_of_1_to_4() {
    let long = vec![b'x'; 65_537];
    let number_of = |choice, latencies: &[u32], times: usize, trace: &[u8]| {
        let mut times = vec![0; times];
        let asked = Asked::choice_alone(choice);
        judge(Inputs { trace, latencies, asked, times: &mut times, wanted: true, room: &mut [] }).number
    };
    assert_eq!(number_of(0, &[], 0, &long), 1);
    assert_eq!(number_of(1, &[u32::MAX], 2_048, &long), 2);
    assert_eq!(number_of(1, &flat_table(u32::MAX), 0, &long), 2);
    assert_eq!(number_of(2, &flat_table(u32::MAX), 2_048, &long), 3);
    assert_eq!(number_of(2, &flat_table(0), 2_048, &long), 4);
    assert_eq!(number_of(2, &flat_table(0), 2_048, b"x"), 5);
    assert_eq!(number_of(2, &flat_table(0), 0, b""), 2);
}

#[test]
fn refusals_touch_nothing() {
    let (answer, times) = judged(TRACE_A.replace("-4 -51", "-4 -50"), &flat_table(5), STRICT);
    assert_eq!(answer, Answer { number: 8, line: 5, column: 4, ..Answer::default() });
    assert!(times.is_empty());
}
