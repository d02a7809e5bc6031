//! Request 4 of document 02, "A short receive is no fault": each corner with what it comes to. Strict and
//! latencies 0 unless it is said.

mod common;

use common::{LENIENT, RECEIVES, SENDS, STRICT, TRACE_A, judged, number, trace, written};
use reference::generator::flat_table;

/// Number and line of messages from processor 0 to 1 of one type, sent with the first lengths and received
/// with the others, the sends first in the file; the same under both choices.
#[track_caller]
fn lengths(sent: &[i64], received: &[i64]) -> (u64, u64) {
    let sends = sent.iter().map(|length| format!("-3 -21 T 0 0 3 2 {length} 5 1"));
    let receives = received.iter().map(|length| format!("-4 -52 T 1 0 3 2 {length} 5 0"));
    let lines: Vec<String> = sends.chain(receives).collect();
    let trace = trace(&lines.iter().map(String::as_str).collect::<Vec<_>>());
    let strict = number(&trace, STRICT);
    assert_eq!(number(&trace, LENIENT), strict, "{trace}");
    strict
}

#[test]
fn received_above_sent_exactly() {
    for sent in [0, 1, 2, 8, 999_999_998, 999_999_999] {
        for received in [0, 1, 2, 7, 8, 9, 999_999_998, 999_999_999] {
            let comes = if received > sent { (14, 2) } else { (0, 0) };
            assert_eq!(lengths(&[sent], &[received]), comes, "{sent} {received}");
        }
    }
}

#[test]
fn the_kth_belongs_to_the_kth_even_where_another_pairing_would_fit() {
    assert_eq!(lengths(&[8, 16], &[16, 8]), (14, 3));
    assert_eq!(lengths(&[16, 8], &[8, 16]), (14, 4));
    assert_eq!(lengths(&[16, 8], &[8, 8]), (0, 0));
    assert_eq!(lengths(&[16, 8], &[16, 16]), (14, 4));
    assert_eq!(lengths(&[16], &[8, 8]), (13, 3));
}

#[test]
fn the_first_that_calls_decides() {
    assert_eq!(lengths(&[8, 8], &[7, 9]), (14, 4));
    assert_eq!(lengths(&[8, 8], &[9, 10]), (14, 3));
    assert_eq!(lengths(&[8, 8], &[7, 7, 9]), (13, 5));
    assert_eq!(lengths(&[8, 8], &[7, 9, 9]), (14, 4));
}

#[test]
fn every_send_and_every_receive() {
    for send in SENDS {
        for receive in RECEIVES {
            for (received, comes) in [(7, (0, 0)), (8, (0, 0)), (9, (14, 1))] {
                let [receive, send] =
                    [format!("{receive} T 1 0 3 2 {received} 5 0"), format!("{send} T 0 0 3 2 8 5 1")];
                assert_eq!(number(trace(&[&receive, &send]), STRICT), comes, "{receive} {send}");
            }
        }
    }
}

#[test]
fn a_short_receive_waits_as_any_other() {
    let short = TRACE_A.replace("1 0 3 2 8 1 0", "1 0 3 2 3 1 0").replace("0 0 3 2 8 2 1", "0 0 3 2 0 2 1");
    assert_ne!(short, TRACE_A);
    let (answer, times) = judged(&short, &flat_table(5), STRICT);
    assert_eq!((answer, &times), (judged(TRACE_A, &flat_table(5), STRICT).0, &vec![10, 12, 15, 15, 20]));
    assert_eq!((answer.matched, answer.unreceived, answer.rounds), (2, 0, 3));
    // What is written has the lengths that were read.
    let again = written(&short, 5);
    let unmoved = String::from_utf8(again.clone()).unwrap();
    assert!(unmoved.contains(" 1 0 3 2 3 1 0\n") && unmoved.contains(" 0 0 3 2 0 2 1\n"), "{unmoved}");
    assert_eq!(judged(again, &flat_table(5), STRICT).1, times);
}
