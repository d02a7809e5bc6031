//! Document 01's sample traces, and the sentences that it gives beside them.

mod common;

use common::{LENIENT, STRICT, TRACE_A, TRACE_B, first_lines, judged, number, refused, written};
use reference::generator::flat_table;
use reference::report::report;
use reference::{Answer, Asked, Inputs, LATENCIES, MAX_BYTES, MAX_LATENCY, MAX_RECORDS, judge};

const TABLE_20: &str = include_str!("data/table20");

#[test]
fn p1_trace_a() {
    let (answer, times) = judged(TRACE_A, &flat_table(5), STRICT);
    assert_eq!(times, [10, 12, 15, 15, 20]);
    assert_eq!((answer.rounds, answer.verdict), (3, 2));
    assert_eq!(report(&answer), "verdict corrected\nlisted 5\npassed 0\nmatched 2\nunreceived 0\nrounds 3\n");
}

#[test]
fn p2_its_first_three_lines() {
    let (answer, times) = judged(first_lines(TRACE_A, 3), &flat_table(5), STRICT);
    assert_eq!(times, [10, 12, 15]);
    assert_eq!(answer.rounds, 1);
}

#[test]
fn p3_latencies_0() {
    let (answer, times) = judged(TRACE_A, &flat_table(0), STRICT);
    assert_eq!(times, [10, 12, 10, 11, 13]);
    assert_eq!(answer.rounds, 1);
}

#[test]
fn p4_line_4_removed() {
    let without: String = TRACE_A
        .split_inclusive('\n')
        .enumerate()
        .filter(|&(place, _)| place != 3)
        .map(|(_, line)| line)
        .collect();
    assert_eq!(number(without, STRICT), (13, 4));
}

#[test]
fn p5_empty_trace() {
    let (answer, times) = judged("", &flat_table(0), STRICT);
    assert_eq!(answer, Answer { verdict: 3, ..Answer::default() });
    assert!(times.is_empty());
    assert_eq!(
        report(&answer),
        "verdict nothing to judge\nlisted 0\npassed 0\nmatched 0\nunreceived 0\nrounds 0\n"
    );
}

#[test]
fn p6_a_ring_with_times() {
    let (answer, times) = judged(TRACE_B, &flat_table(0), STRICT);
    assert_eq!(times, [4, 4, 4, 4]);
    assert_eq!(answer.rounds, 3);
}

#[test]
fn p7_a_ring_without() {
    let mut latencies = flat_table(0);
    latencies[1] = 1;
    let (answer, times) = judged(TRACE_B, &latencies, STRICT);
    assert_eq!(answer, Answer { number: 15, ..Answer::default() });
    assert!(times.is_empty());
}

#[test]
fn p8_p9_times_about_zero() {
    assert_eq!(number("0 0 ^-0.000000 0 0 0\n", STRICT), (6, 1));
    let (_, times) = judged("0 0 -0.000001 0 0 0\n", &flat_table(0), STRICT);
    assert_eq!(times, [-1]);
}

#[test]
fn p10_choice_3() {
    assert_eq!(number(TRACE_A, Asked::choice_alone(3)), (1, 0));
}

#[test]
fn table_20() {
    assert_eq!(refused(TABLE_20, STRICT), (13, 13, 0));
    assert_eq!(refused(TABLE_20, LENIENT), (13, 13, 0));
    let (answer, _) = judged(first_lines(TABLE_20, 12), &flat_table(0), STRICT);
    assert_eq!((answer.verdict, answer.listed), (3, 12));
    let said = |asked| report(&judged(TABLE_20, &flat_table(0), asked).0);
    assert_eq!(said(STRICT), "refused 13 line 13 column 0\n");
    assert_eq!(said(LENIENT), "refused 13 line 13 column 0\n");
}

#[test]
fn trace_b_with_its_last_lines_first() {
    let lines: Vec<&str> = TRACE_B.split_inclusive('\n').collect();
    let turned = [lines[2], lines[3], lines[0], lines[1]].concat();
    let (_, times) = judged(turned, &flat_table(0), STRICT);
    assert_eq!(times, [4, 4, 4, 4]);
}

#[test]
fn sizes_of_a_trace() {
    for (length, expected) in [(MAX_BYTES, (0, 0)), (MAX_BYTES + 1, (4, 0))] {
        let mut trace = b"-5 0 0.000000 0 0 1 ".to_vec();
        trace.resize(length - 1, b'x');
        trace.push(b'\n');
        assert_eq!(number(trace, LENIENT), expected);
    }
    let records = "0 0 0.000000 0 0 0\n".repeat(MAX_RECORDS);
    assert_eq!(number(&records, STRICT), (0, 0));
    assert_eq!(number(records.clone() + "0 0 0.000000 63 0 0\n", STRICT), (12, 2_049));
    assert_eq!(number(records + "-5 0 0.000000 0 0 0\n", LENIENT), (0, 0));
}

#[test]
fn processors() {
    assert_eq!(number("0 0 0.000000 63 0 0\n", STRICT), (0, 0));
    assert_eq!(number("0 0 0.000000 ^64 0 0\n", STRICT), (9, 1));
    assert_eq!(number("0 0 0.000000 0 ^1 0\n", STRICT), (9, 1));
}

#[test]
fn a_time_that_may_not_pass_the_limit() {
    let trace = "-3 -21 999999999.999999 0 0 3 2 8 1 1\n-4 -52 999999999.999999 1 0 3 2 8 1 0\n";
    assert_eq!(judged(trace, &flat_table(1), STRICT).0.number, 15);
    let (answer, times) = judged(trace, &flat_table(0), STRICT);
    assert_eq!((answer.verdict, times), (1, vec![999_999_999_999_999; 2]));
}

#[test]
fn lengths_and_latencies() {
    let number_of = |latencies: &[u32], times: usize| {
        let mut times = vec![0; times];
        let lent =
            Inputs { trace: b"", latencies, asked: STRICT, times: &mut times, wanted: false, room: &mut [] };
        judge(lent).number
    };
    assert_eq!(number_of(&flat_table(MAX_LATENCY), MAX_RECORDS), 0);
    assert_eq!(number_of(&flat_table(MAX_LATENCY + 1), MAX_RECORDS), 3);
    assert_eq!(number_of(&[0; LATENCIES - 1], MAX_RECORDS), 2);
    assert_eq!(number_of(&[u32::MAX; LATENCIES + 1], MAX_RECORDS), 2);
    assert_eq!(number_of(&flat_table(0), MAX_RECORDS - 1), 2);
    assert_eq!(number_of(&flat_table(0), MAX_RECORDS + 1), 2);
}

#[test]
fn the_written_trace() {
    let expected = "\
-3 -21 0.000010 0 0 3 2 8 1 1
-4 -21 0.000012 0 0 0
-4 -52 0.000015 1 0 3 2 8 1 0
-3 -21 0.000015 1 0 3 2 8 2 0
-4 -51 0.000020 0 0 3 2 8 2 1
";
    assert_eq!(written(TRACE_A, 5), expected.as_bytes());
    assert_eq!(written("", 0), b"");
}

#[test]
fn room_that_just_fits() {
    for (length, expected) in [(TRACE_A.len() - 1, 16), (TRACE_A.len(), 0), (TRACE_A.len() + 3, 0)] {
        let mut times = vec![-7; MAX_RECORDS];
        let mut room = vec![b'#'; length];
        let answer = judge(Inputs {
            trace: TRACE_A.as_bytes(),
            latencies: &flat_table(5),
            asked: STRICT,
            times: &mut times,
            wanted: true,
            room: &mut room,
        });
        assert_eq!(answer.number, expected);
        if expected == 0 {
            assert_eq!(answer.written, TRACE_A.len() as u64);
            assert!(room[TRACE_A.len()..].iter().all(|&byte| byte == b'#'));
            assert!(times[5..].iter().all(|&time| time == -7));
        } else {
            assert!(room.iter().all(|&byte| byte == b'#'));
            assert!(times.iter().all(|&time| time == -7));
        }
    }
}

/// The table of event types, as document 01 prints it and request 2 changes it.
#[test]
fn event_types() {
    const LISTED: [i64; 35] = [
        -11, -12, -21, -27, -28, -29, -30, -31, -51, -52, -57, -58, -59, -60, -61, -201, -202, -221, -251,
        -401, -402, -501, -502, -503, -601, -602, -603, -901, -902, -903, -904, -911, -912, -913, -914,
    ];
    for event in (-1_100..=100).chain([999_999_999, -999_999_999]) {
        let line = format!("-2 {event} 0.000000 0 0 0\n");
        let not_handled = matches!(event, -26..=-22 | -50..=-32 | -56..=-53 | -80..=-62);
        let (strict, lenient) = match event {
            0.. => (0, 0),
            _ if LISTED.contains(&event) => (0, 0),
            _ if not_handled => (8, 8),
            _ => (7, 0),
        };
        // The record type is listed: where one is refused, it is for its event.
        let marked = |number| if number == 0 { line.clone() } else { line.replacen(' ', " ^", 1) };
        assert_eq!(number(marked(strict), STRICT).0, strict, "{line}");
        assert_eq!(number(marked(lenient), LENIENT).0, lenient, "{line}");
    }
}
