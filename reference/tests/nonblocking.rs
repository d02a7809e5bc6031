//! Request 2 of document 02, "Receives that finish later": each corner with what it comes to. Strict and
//! latencies 0 unless it is said.

mod common;

use common::{LENIENT, RECEIVES, SENDS, STRICT, TRACE_A, TRACE_B, judged, number, trace, written};
use reference::MAX_RECORDS;
use reference::generator::flat_table;

/// The events of sendbegin0, sendstatus0, sendend0, recvbegin0, recvstatus0 and recvend0.
const NEW: [i64; 10] = [-27, -28, -29, -30, -31, -57, -58, -59, -60, -61];

/// Every record of the new events that is neither send nor receive, by its start.
fn neither() -> Vec<String> {
    let starts = NEW.into_iter().flat_map(|event| [-2, -3, -4, 0].map(|side| format!("{side} {event}")));
    starts.filter(|start| !SENDS.contains(&start.as_str()) && !RECEIVES.contains(&start.as_str())).collect()
}

/// Number and line of these lines, which are the same under both choices; a caret marks the column.
#[track_caller]
fn both(lines: &[&str]) -> (u64, u64) {
    let strict = number(trace(lines), STRICT);
    assert_eq!(number(trace(lines), LENIENT), strict, "{lines:?}");
    strict
}

/// Messages matched, and sends not received, of lines that are accepted.
#[track_caller]
fn messages(lines: &[&str]) -> (u64, u64) {
    let (answer, _) = judged(trace(lines), &flat_table(0), STRICT);
    assert_eq!(answer.number, 0, "{lines:?}");
    assert_eq!(answer.listed, lines.len() as u64);
    (answer.matched, answer.unreceived)
}

// "2 Receives that finish later" 1: three data for each send and each receive.

#[test]
fn a_message_has_three_data() {
    for start in SENDS.into_iter().chain(RECEIVES) {
        let of = |data: &str| both(&[&format!("{start} T 0 0 {data}")]);
        for data in [
            "^0",
            "^1 2 8",
            "^2 2 8 1",
            "^4 2 8 1 1 0",
            "^5 2 8 1 1 0 0",
            "3 ^5 0.000008 0.000001 0.000001",
            "3 2 ^-1 1 1",
            "3 2 8 1 ^64",
            "3 2 8 1 ^-1",
            "3 2 8 1 ^999999999",
        ] {
            assert_eq!(of(data), (10, 1), "{start} {data}");
        }
        for data in [
            "3 2 8 ^x 1", "3 2 8 1^", "3 2 8 1 1 ^0", "4 2 8 1 1^", "3 ^3 8 1 1", "3 ^02 8 1 1",
            "^17 2 8 1 1",
        ] {
            assert_eq!(of(data), (5, 1), "{start} {data}");
        }
    }
    for start in SENDS {
        for data in ["3 2 8 1 1", "3 2 0 -1 63", "3 2 999999999 -999999999 0"] {
            assert_eq!(messages(&[&format!("{start} T 0 0 {data}")]), (0, 1), "{start} {data}");
        }
    }
    for start in RECEIVES {
        assert_eq!(both(&[&format!("{start} T 0 0 3 2 8 1 1")]), (13, 1), "{start}");
    }
}

#[test]
fn refusal_10_has_its_place_among_the_others() {
    for start in ["-3 -27", "-4 -58", "-4 -60", "-4 -61"] {
        let after = |text: &str| both(&["0 0 0.000001 0 0 0", &format!("{start} {text}")]);
        assert_eq!(after("^x 64 0 0"), (6, 2));
        assert_eq!(after("T ^64 0 0"), (9, 2));
        assert_eq!(after("T 0 ^1 1 x"), (9, 2));
        assert_eq!(after("T 0 0 1 ^x"), (5, 2));
        assert_eq!(after("T 0 0 ^4 2 8 1 1 0"), (10, 2));
        assert_eq!(after("T 0 0 3 2 8 1 1"), (11, 2));
        let full = "0 0 T 0 0 0\n".repeat(MAX_RECORDS);
        let last = |data: &str| number(trace(&[&format!("{full}{start} T 0 0 {data}")]), STRICT);
        assert_eq!(last("^4 2 8 1 1 0"), (10, 2_049));
        assert_eq!(last("3 2 8 1 1"), (12, 2_049));
    }
}

// 2: which events are listed now, and which are still not handled.

#[test]
fn each_new_event_is_listed_as_mark_entry_exit_and_user_data() {
    for event in NEW {
        for record_type in [-2, -3, -4, 0] {
            let start = format!("{record_type} {event}");
            let (end, expected) = match start.as_str() {
                "-3 -27" | "-4 -58" | "-4 -60" | "-4 -61" => ("^0", (10, 1)),
                _ => ("0", (0, 0)),
            };
            assert_eq!(both(&[&format!("{start} T 0 0 {end}")]), expected, "{start}");
            assert_eq!(both(&[&format!("{start} T ^64 0 0")]), (9, 1), "{start}");
            assert_eq!(both(&[&format!("{start} T 0 ^1 0")]), (9, 1), "{start}");
        }
        let other_type = format!("-5 {event} 0.000000 99 9 0\n");
        assert_eq!(number(format!("^{other_type}"), STRICT), (7, 1));
        assert_eq!(number(&other_type, LENIENT), (0, 0));
    }
}

#[test]
fn the_edges_of_refusal_8() {
    for record_type in [-2, -3, -4, 0] {
        let of = |event: i64, end: &str| format!("{record_type} {event} T {end}");
        for event in [-22, -26, -32, -50, -53, -56, -62, -80] {
            for end in ["0 0 0", "0 0 3 2 8 1 1", "99 9 7", "0 0 0 junk"] {
                let line = of(event, end).replacen(' ', " ^", 1);
                assert_eq!(both(&[&line]), (8, 1), "{line}");
            }
        }
        for event in [-21, -27, -31, -51, -52, -57, -61] {
            let (refusal, _) = both(&[&of(event, "0 0 3 2 8 1 1")]);
            assert!(matches!(refusal, 0 | 13), "{record_type} {event}");
        }
        for event in [-20, -81] {
            let line = trace(&[&of(event, "0 0 3 2 8 1 1")]);
            assert_eq!(number(line.replacen(' ', " ^", 1), STRICT), (7, 1), "{line}");
            assert_eq!(number(&line, LENIENT), (0, 0), "{line}");
        }
    }
}

// 3: the data of records that are neither.

#[test]
fn a_record_that_is_neither_may_have_any_good_data() {
    for start in neither() {
        let of = |data: &str| both(&[&format!("{start} T 0 0 {data}")]);
        for data in ["0", "1 2 7", "1 5 T", "2 2 8 1", "3 2 8 1 1", "3 2 -8 1 64", "3 5 T T T", "4 2 8 1 1 0"]
        {
            assert_eq!(of(data), (0, 0), "{start} {data}");
        }
        assert_eq!(of(&format!("16 2{}", " -1".repeat(16))), (0, 0), "{start}");
        for data in ["1^", "1 2^", "1 2 ^x", "1 ^3 7", "1 5 ^7", "0 ^2", "1 2 7 ^7", "1 2 ^-0"] {
            assert_eq!(of(data), (5, 1), "{start} {data}");
        }
        assert_eq!(of(&format!("^17 2{}", " -1".repeat(17))), (5, 1), "{start}");
    }
}

// 4: sends and receives, and one count for all.

#[test]
fn every_send_meets_every_receive() {
    for send in SENDS {
        for receive in RECEIVES {
            let lines = [
                &format!("{receive} 0.000001 1 0 3 2 8 1 0"),
                "-3 7 0.000002 1 0 0",
                &format!("{send} 0.000010 0 0 3 2 8 1 1"),
            ];
            assert_eq!(messages(&lines), (1, 0));
            let (answer, times) = judged(trace(&lines), &flat_table(5), STRICT);
            assert_eq!(times, [15, 15, 10], "{lines:?}");
            assert_eq!((answer.verdict, answer.rounds), (2, 2));
        }
    }
}

#[test]
fn other_records_are_no_messages() {
    let data = "T 0 0 3 2 8 1 0";
    for start in neither() {
        let line = format!("{start} {data}");
        // It sends nothing and receives nothing,
        assert_eq!(messages(&[&line]), (0, 0), "{start}");
        for receive in RECEIVES {
            assert_eq!(both(&[&line, &format!("{receive} {data}")]), (13, 2), "{start} {receive}");
        }
        // and takes no place in the count of those that do.
        let [send, other] = SENDS.map(|send| format!("{send} {data}"));
        assert_eq!(messages(&[&send, &line]), (0, 1), "{start}");
        assert_eq!(messages(&[&line, &send, &line, &other, &line]), (0, 2), "{start}");
        let receive = format!("-4 -60 {data}");
        assert_eq!(messages(&[&line, &other, &line, &receive, &line]), (1, 0), "{start}");
    }
}

#[test]
fn one_count_for_all_receives() {
    let sends = ["-3 -21 0.000010 0 0 3 2 1 5 1", "-3 -21 0.000020 0 0 3 2 2 5 1"];
    for first in RECEIVES {
        for second in RECEIVES {
            let [one, two] =
                [(first, 1), (second, 2)].map(|(start, size)| format!("{start} T 1 0 3 2 {size} 5 0"));
            let good = [&one, &two, sends[0], sends[1]];
            let (answer, times) = judged(trace(&good), &flat_table(3), STRICT);
            assert_eq!((answer.number, answer.matched), (0, 2), "{good:?}");
            assert_eq!(times, [13, 23, 10, 20], "{good:?}");
            // In the other order the first takes more than was sent.
            assert_eq!(both(&[sends[0], sends[1], &two, &one]), (14, 3), "{good:?}");
            // A third has no send, whatever the two before it were.
            let third = "-4 -58 T 1 0 3 2 2 5 0";
            assert_eq!(both(&[sends[0], &one, &two, sends[1], third]), (13, 5), "{good:?}");
        }
    }
}

#[test]
fn one_count_for_all_sends() {
    let receives = ["-4 -61 T 1 0 3 2 1 5 0", "-4 -52 T 1 0 3 2 2 5 0"];
    for first in SENDS {
        for second in SENDS {
            let one = format!("{first} 0.000010 0 0 3 2 1 5 1");
            let two = format!("{second} 0.000010 0 0 3 2 2 5 1");
            assert_eq!(messages(&[receives[0], &one, &two, receives[1]]), (2, 0), "{first} {second}");
            assert_eq!(both(&[&two, receives[0], receives[1], &one]), (14, 3), "{first} {second}");
            assert_eq!(messages(&[&one, &two, receives[0]]), (1, 1), "{first} {second}");
        }
    }
}

#[test]
fn counts_are_apart_by_sender_receiver_and_type() {
    let send = "-3 -27 T 0 0 3 2 8 1 1";
    assert_eq!(both(&[send, "-4 -60 T 1 0 3 2 8 2 0"]), (13, 2));
    assert_eq!(both(&[send, "-4 -60 T 2 0 3 2 8 1 0"]), (13, 2));
    assert_eq!(both(&[send, "-4 -60 T 1 0 3 2 8 1 2"]), (13, 2));
    assert_eq!(both(&[send, "-4 -60 T 1 0 3 2 8 -1 0"]), (13, 2));
    assert_eq!(both(&[send, "-4 -60 T 1 0 3 2 9 1 0"]), (14, 2));
    assert_eq!(messages(&["-3 -27 T 63 0 3 2 8 1 63", "-4 -61 T 63 0 3 2 8 1 63"]), (1, 0));
}

#[test]
fn receives_count_by_completion() {
    // What was posted second is found complete first: it is the first receive.
    let lines = [
        "-3 -27 T 0 0 3 2 1 5 1",
        "-3 -27 T 0 0 3 2 2 5 1",
        "-3 -57 T 1 0 1 2 5",
        "-4 -57 T 1 0 1 2 100",
        "-3 -57 T 1 0 1 2 5",
        "-4 -57 T 1 0 1 2 200",
        "-3 -60 T 1 0 1 2 200",
        "-4 -60 T 1 0 3 2 1 5 0",
        "-3 -61 T 1 0 1 2 100",
        "-4 -61 T 1 0 3 2 2 5 0",
    ];
    assert_eq!(messages(&lines), (2, 0));
    // A post that is never found complete is no receive, and a receive needs no post.
    assert_eq!(messages(&lines[..6]), (0, 2));
    assert_eq!(messages(&[lines[0], lines[7]]), (1, 0));
    // Each exit that found one complete is a receive, and those that did not are none.
    assert_eq!(both(&[lines[0], lines[7], lines[7]]), (13, 3));
    assert_eq!(messages(&[lines[0], "-4 -59 T 1 0 3 2 1 5 0", "-4 -59 T 1 0 0", lines[7]]), (1, 0));
}

#[test]
fn a_receive_is_not_lost() {
    for receive in ["-4 -58", "-4 -60", "-4 -61"] {
        let line = format!("{receive} T 1 0 3 2 8 1 0");
        assert_eq!(both(&["-2 0 T 0 0 0", &line]), (13, 2));
        let (answer, _) = judged(trace(&["-3 -21 T 0 0 3 2 8 1 1", &line]), &flat_table(0), LENIENT);
        assert_eq!((answer.passed, answer.matched, answer.unreceived), (0, 1, 0));
    }
}

// 5: the end of a send brings no clock condition.

#[test]
fn the_end_of_a_send_waits_for_nothing() {
    for event in [-28, -30, -31] {
        let lines = [
            "-3 -27 0.000010 0 0 3 2 8 1 1",
            "-4 -27 0.000011 0 0 1 2 1",
            &format!("-3 {event} 0.000012 0 0 1 2 1"),
            &format!("-4 {event} 0.000013 0 0 0"),
            "-4 -61 0.000001 1 0 3 2 8 1 0",
        ];
        let (_, times) = judged(trace(&lines), &flat_table(100), STRICT);
        assert_eq!(times, [10, 11, 12, 13, 110]);
    }
}

#[test]
fn a_post_waits_for_nothing_but_keeps_its_processors_order() {
    let lines = [
        "-3 -57 0.000001 1 0 1 2 1",
        "-4 -57 0.000002 1 0 1 2 1",
        "-3 -60 0.000003 1 0 1 2 1",
        "-4 -60 0.000004 1 0 3 2 8 1 0",
        "-3 -57 0.000005 1 0 1 2 2",
        "-2 -59 0.000006 1 0 0",
        "-3 -21 0.000010 0 0 3 2 8 1 1",
    ];
    let (answer, times) = judged(trace(&lines), &flat_table(5), STRICT);
    assert_eq!(times, [1, 2, 3, 15, 15, 15, 10]);
    assert_eq!(answer.rounds, 3);
}

// The samples of document 01 by other events: nothing else moves.

fn by_other_events(trace: &str) -> String {
    trace.replace("-3 -21", "-3 -27").replace("-4 -52", "-4 -60").replace("-4 -51", "-4 -58")
}

#[test]
fn the_samples_by_other_events() {
    for (sample, latency) in [(TRACE_A, 5), (TRACE_A, 0), (TRACE_B, 0), (TRACE_B, 1)] {
        let (table, other) = (flat_table(latency), by_other_events(sample));
        assert_eq!(judged(&other, &table, STRICT), judged(sample, &table, STRICT));
    }
    let corrected = written(by_other_events(TRACE_A), 5);
    assert_eq!(corrected, by_other_events(str::from_utf8(&written(TRACE_A, 5)).unwrap()).as_bytes());
    assert_eq!(written(&corrected, 5), corrected);
    let (again, _) = judged(&corrected, &flat_table(5), STRICT);
    assert_eq!((again.verdict, again.matched, again.rounds), (1, 2, 0));
}
