//! Request 6 of document 02, "Merge traces of separate nodes": each corner with what it comes to. Strict
//! unless it is said.

mod common;

use common::{TRACE_A, TRACE_B, number, trace};
use reference::merge::{Merged, lines, merge};
use reference::{MAX_BYTES, MAX_RECORDS};

const STRICT: u32 = common::STRICT.choice;
const LENIENT: u32 = common::LENIENT.choice;

/// Stands in every byte of the room beforehand; in no trace.
const UNTOUCHED: u8 = b'#';

/// The answer, and what it has written at the start of a room of so many bytes: nothing behind that is
/// touched, and nothing at all by a refusal.
#[track_caller]
fn into_room(first: &[u8], second: &[u8], choice: u32, room: usize) -> (Merged, Vec<u8>) {
    let mut room = vec![UNTOUCHED; room];
    let answer = merge(first, second, choice, &mut room);
    let behind = room.split_off(answer.written as usize);
    assert!(behind.iter().all(|&byte| byte == UNTOUCHED), "{answer:?}");
    assert!(answer.number == 0 || answer.written == 0, "{answer:?}");
    (answer, room)
}

/// Number, which trace, line and column, with room enough and more.
#[track_caller]
fn refused(first: impl AsRef<[u8]>, second: impl AsRef<[u8]>, choice: u32) -> (u64, u64, u64, u64) {
    let (first, second) = (first.as_ref(), second.as_ref());
    let (answer, _) = into_room(first, second, choice, first.len() + second.len() + 7);
    let Merged { number, which, line, column, .. } = answer;
    (number, which, line, column)
}

/// The merged trace.
#[track_caller]
fn merged(first: impl AsRef<[u8]>, second: impl AsRef<[u8]>, choice: u32) -> String {
    let (first, second) = (first.as_ref(), second.as_ref());
    let written = first.len() + second.len();
    let (answer, text) = into_room(first, second, choice, written + 7);
    assert_eq!(answer, Merged { written: written as u64, ..Merged::default() });
    String::from_utf8(text).unwrap()
}

const ACCEPTED: (u64, u64, u64, u64) = (0, 0, 0, 0);

/// Number and line of the merged trace where it is judged.
#[track_caller]
fn read_again(text: impl AsRef<[u8]>) -> (u64, u64) {
    number(text, common::LENIENT)
}

/// The merged order of records of processors 0 and 1 with these times, each called by its time, those of the
/// second with a prime. A time with an x is that of a line that is passed over.
#[track_caller]
fn order(first: &str, second: &str) -> String {
    let of = |times: &str, processor| -> String {
        let lines = times.split(' ').map(|time| match time.strip_suffix('x') {
            Some(passed) => format!("-5 {processor} {passed} 0 0 0\n"),
            None => format!("0 {processor} {time} {processor} 0 0\n"),
        });
        lines.collect()
    };
    let [first, second] = [of(first, 0), of(second, 1)];
    let text = merged(&first, &second, LENIENT);
    let names = text.lines().map(|line| {
        let fields: Vec<&str> = line.split(' ').collect();
        let prime = if fields[1] == "1" { "'" } else { "" };
        let passed = if fields[0] == "-5" { "x" } else { "" };
        format!("{}{passed}{prime}", fields[2])
    });
    names.collect::<Vec<_>>().join(" ")
}

// "6 Merge" 3: which line goes next.

#[test]
fn the_smaller_timestamp_goes_next() {
    assert_eq!(order("0.000001", "0.000002"), "0.000001 0.000002'");
    assert_eq!(order("0.000002", "0.000001"), "0.000001' 0.000002");
    assert_eq!(
        order("0.000001 0.000003 0.000005", "0.000002 0.000004"),
        "0.000001 0.000002' 0.000003 0.000004' 0.000005"
    );
    assert_eq!(order("0.000005", "0.000001 0.000004 0.000006"), "0.000001' 0.000004' 0.000005 0.000006'");
}

#[test]
fn the_first_traces_where_equal() {
    assert_eq!(order("0.000001", "0.000001"), "0.000001 0.000001'");
    assert_eq!(order("0.000001 0.000001", "0.000001 0.000001"), "0.000001 0.000001 0.000001' 0.000001'");
    assert_eq!(order("0.000001 0.000002", "0.000001 0.000002"), "0.000001 0.000001' 0.000002 0.000002'");
    assert_eq!(order("0.000001x", "0.000001"), "0.000001x 0.000001'");
    assert_eq!(order("0.000001", "0.000001x"), "0.000001 0.000001x'");
}

#[test]
fn times_are_numbers() {
    for (lower, higher) in [
        ("9.999999", "10.000000"),
        ("2.000000", "10.000000"),
        ("1.999999", "2.000000"),
        ("-10.000000", "-9.999999"),
        ("-2.000000", "-1.999999"),
        ("-0.000002", "-0.000001"),
        ("-0.000001", "0.000000"),
        ("-5.000000", "1.000000"),
        ("-999999999.999999", "999999999.999999"),
        ("999999999.999998", "999999999.999999"),
    ] {
        assert_eq!(order(lower, higher), format!("{lower} {higher}'"));
        assert_eq!(order(higher, lower), format!("{lower}' {higher}"));
        assert_eq!(order(&format!("{lower}x"), higher), format!("{lower}x {higher}'"));
        assert_eq!(order(higher, &format!("{lower}x")), format!("{lower}x' {higher}"));
    }
}

/// What stands behind a late line waits for it, and an early one behind it goes at once.
#[test]
fn only_the_heads_are_compared() {
    assert_eq!(
        order("0.000005 0.000001x", "0.000003 0.000004 0.000006"),
        "0.000003' 0.000004' 0.000005 0.000001x 0.000006'"
    );
    assert_eq!(order("0.000009x 0.000001", "0.000002"), "0.000002' 0.000009x 0.000001");
    assert_eq!(order("0.000009x 0.000001", "0.000007x 0.000002"), "0.000007x' 0.000002' 0.000009x 0.000001");
    // Listed lines of two processors in one trace need not be in order, either.
    let first = trace(&["0 0 0.000005 0 0 0", "0 0 0.000001 2 0 0"]);
    let second = trace(&["0 0 0.000003 1 0 0", "0 0 0.000006 1 0 0"]);
    let expected =
        trace(&["0 0 0.000003 1 0 0", "0 0 0.000005 0 0 0", "0 0 0.000001 2 0 0", "0 0 0.000006 1 0 0"]);
    assert_eq!(merged(first, second, STRICT), expected);
}

#[test]
fn bytes_stay_as_they_are() {
    let [one, other] = [&b"-5 0 0.000001 0 0 1 \xff\x00 \r\n"[..], b"0 0 0.000003 0 0 1 5 -0.000001\n"];
    let between = b"-104 -1 0.000002 0 9 2 \"%d%lf\" 0  x\t\n";
    let (answer, text) = into_room(&[one, other].concat(), between, LENIENT, 200);
    assert_eq!((answer.number, text), (0, [one, between, other].concat()));
}

/// "As a part of whichever trace it came from, uncopied."
#[test]
fn lines_are_parts_of_their_trace() {
    let first = trace(&["0 0 0.000001 0 0 0", "0 0 0.000003 0 0 0"]);
    let second = trace(&["0 0 0.000002 1 0 0"]);
    let (one, other) = first.split_at(first.len() / 2);
    let places: Vec<_> = lines(first.as_bytes(), second.as_bytes()).map(<[u8]>::as_ptr_range).collect();
    assert_eq!(places, [one, &second, other].map(|line| line.as_bytes().as_ptr_range()));
}

#[test]
fn trace_a_of_two_nodes() {
    let node = |processor: &str| -> String {
        TRACE_A.split_inclusive('\n').filter(|line| line.split(' ').nth(3) == Some(processor)).collect()
    };
    let expected = "\
-4 -52 0.000009 1 0 3 2 8 1 0
-3 -21 0.000010 0 0 3 2 8 1 1
-3 -21 0.000011 1 0 3 2 8 2 0
-4 -21 0.000012 0 0 0
-4 -51 0.000013 0 0 3 2 8 2 1
";
    assert_eq!(merged(node("0"), node("1"), STRICT), expected);
    assert_eq!(merged(node("1"), node("0"), STRICT), expected);
}

// "6 Merge" 1 and 2: each trace by itself.

/// A trace that is refused by itself, with its number, line and column, for 4 to 12.
fn refused_by_itself() -> [(Vec<u8>, (u64, u64, u64)); 9] {
    let of = |lines: &[&str]| trace(lines).into_bytes();
    [
        (vec![b'\n'; MAX_BYTES + 1], (4, 0, 0)),
        (of(&["0 0 T 1 0 0", "0 0 T 1 0 0 x"]), (5, 2, 20)),
        (of(&["0 0 -0.000000 1 0 0"]), (6, 1, 5)),
        (of(&["0 0 T 1 0 0", "0 0 T 1 0 0", "-5 0 T 1 0 0"]), (7, 3, 1)),
        (of(&["0 -62 T 1 0 0"]), (8, 1, 3)),
        (of(&["0 0 T 64 0 0"]), (9, 1, 14)),
        (of(&["-3 -21 T 1 0 0"]), (10, 1, 21)),
        (of(&["0 0 0.000001 1 0 0", "0 0 T 1 0 0"]), (11, 2, 0)),
        (b"0 0 0.000000 1 0 0\n".repeat(MAX_RECORDS + 1), (12, 2_049, 0)),
    ]
}

#[test]
fn either_trace_is_refused_as_it_would_be_alone() {
    let good = trace(&["0 0 T 0 0 0", "0 0 0.000001 63 0 0"]);
    for (bad, (number, line, column)) in refused_by_itself() {
        for other in [good.as_bytes(), b""] {
            assert_eq!(refused(&bad, other, STRICT), (number, 1, line, column));
            assert_eq!(refused(other, &bad, STRICT), (number, 2, line, column));
        }
    }
}

/// 4 of the second, too, comes after 5 to 12 of the first.
#[test]
fn the_first_trace_comes_before_the_second() {
    for (first, (number, line, column)) in refused_by_itself() {
        for (second, _) in refused_by_itself() {
            assert_eq!(refused(&first, &second, STRICT), (number, 1, line, column));
        }
    }
}

#[test]
fn a_missing_lf_is_of_the_trace_that_lacks_it() {
    let good = "0 0 0.000000 0 0 0\n";
    let unended = "0 0 0.000000 1 0 0\n0 0 0.000000 1 0 0";
    assert_eq!(refused(unended, good, STRICT), (5, 1, 2, 19));
    assert_eq!(refused(good, unended, STRICT), (5, 2, 2, 19));
    // No line of the other ends it.
    assert_eq!(refused("0", " 0 0.000000 1 0 0\n", STRICT), (5, 1, 1, 2));
    assert_eq!(refused("", "\n", STRICT), (5, 2, 1, 1));
}

/// What the first has read is nothing to the second: neither the lines before nor the records nor the times.
#[test]
fn each_trace_begins_anew() {
    let first = b"0 0 0.000009 0 0 0\n".repeat(MAX_RECORDS);
    let second = b"0 0 0.000001 1 0 0\n".repeat(MAX_RECORDS);
    assert_eq!(refused(&first, &second, STRICT), ACCEPTED);
    let bad_end = [&second[..], b"x\n"].concat();
    assert_eq!(refused(&first, &bad_end, STRICT), (5, 2, 2_049, 2));
    assert_eq!(refused(&first, b"0 0 0.000001 1 0 0\n0 0 0.000000 1 0 0\n", STRICT), (11, 2, 2, 0));
    // An earlier time of a processor that is in both is no 11.
    assert_eq!(refused(&first, b"0 0 0.000001 0 0 0\n", STRICT), (18, 0, 0, 0));
}

#[test]
fn each_trace_has_its_own_limits() {
    let filled = |processor: u32, length: usize| {
        let mut trace = format!("0 0 0.000000 {processor} 0 0\n-5 0 0.000000 0 0 1 ").into_bytes();
        trace.resize(length - 1, b'x');
        trace.push(b'\n');
        trace
    };
    let [first, second] = [0, 1].map(|processor| filled(processor, MAX_BYTES));
    let (answer, text) = into_room(&first, &second, LENIENT, 2 * MAX_BYTES);
    assert_eq!((answer.number, answer.written), (0, 131_072));
    assert_eq!(read_again(text), (4, 0));
    assert_eq!(refused(filled(0, MAX_BYTES + 1), &second, LENIENT), (4, 1, 0, 0));
    assert_eq!(refused(&first, filled(1, MAX_BYTES + 1), LENIENT), (4, 2, 0, 0));

    let of = |processor: u32, count: usize| format!("0 0 0.000000 {processor} 0 0\n").repeat(count);
    let text = merged(of(0, MAX_RECORDS), of(1, 1), STRICT);
    assert_eq!(read_again(text), (12, 2_049));
    let text = merged(of(0, MAX_RECORDS / 2), of(1, MAX_RECORDS / 2), STRICT);
    assert_eq!(read_again(text), (0, 0));
    assert_eq!(refused(of(0, MAX_RECORDS + 1), of(1, 1), STRICT), (12, 1, 2_049, 0));
    assert_eq!(refused(of(0, 1), of(1, MAX_RECORDS + 1), STRICT), (12, 2, 2_049, 0));
}

#[test]
fn the_choice_is_for_both() {
    let passed = trace(&["-5 0 T 0 0 0"]);
    let listed = trace(&["0 0 T 0 0 0"]);
    assert_eq!(refused(&passed, &listed, STRICT), (7, 1, 1, 1));
    assert_eq!(refused(&listed, &passed, STRICT), (7, 2, 1, 1));
    assert_eq!(refused(&passed, &listed, LENIENT), ACCEPTED);
    assert_eq!(refused(&listed, &passed, LENIENT), ACCEPTED);
    // No choice passes over an event that is not handled.
    assert_eq!(refused(&listed, trace(&["0 -62 T 0 0 0"]), LENIENT), (8, 2, 1, 3));
}

// "6 Merge" 4: 18.

#[test]
fn a_processor_with_listed_records_in_both() {
    let of = |processors: &[u32]| -> String {
        processors.iter().map(|processor| format!("0 0 0.000000 {processor} 0 0\n")).collect()
    };
    for processor in 0..64 {
        assert_eq!(refused(of(&[processor]), of(&[processor]), STRICT), (18, 0, 0, 0));
        for other in (0..64).filter(|&other| other != processor) {
            assert_eq!(refused(of(&[processor]), of(&[other]), STRICT), ACCEPTED, "{processor} {other}");
        }
    }
    assert_eq!(refused(of(&[1, 2, 3]), of(&[4, 2, 5]), STRICT), (18, 0, 0, 0));
    assert_eq!(refused(of(&[1, 2, 3]), of(&[4, 5, 6]), STRICT), ACCEPTED);
    assert_eq!(refused(of(&[5, 5, 5]), of(&[5]), STRICT), (18, 0, 0, 0));
    let (even, odd): (Vec<u32>, Vec<u32>) = (0..64).partition(|processor| processor % 2 == 0);
    assert_eq!(refused(of(&even), of(&odd), STRICT), ACCEPTED);
    assert_eq!(refused(of(&even), of(&[&odd[..], &[62]].concat()), STRICT), (18, 0, 0, 0));
}

#[test]
fn lines_passed_over_share_no_processor() {
    let listed = trace(&["0 0 T 7 0 0"]);
    for passed in ["-5 0 T 7 0 0", "-3 -1 T 7 0 0", "-104 -1 T 7 0 1 x", "0 -905 T 7 0 0"] {
        let passed = trace(&[passed]);
        assert_eq!(refused(&passed, &passed, LENIENT), ACCEPTED, "{passed}");
        assert_eq!(refused(&listed, &passed, LENIENT), ACCEPTED, "{passed}");
        assert_eq!(refused(&passed, &listed, LENIENT), ACCEPTED, "{passed}");
        let both = format!("{passed}{listed}");
        assert_eq!(refused(&both, &passed, LENIENT), ACCEPTED, "{passed}");
        assert_eq!(refused(&both, &listed, LENIENT), (18, 0, 0, 0), "{passed}");
    }
    // Statistics are listed, whatever their event is.
    let statistics = trace(&["-102 -1001 T 7 0 1 \"%d%d\" 0 5"]);
    assert_eq!(refused(&statistics, &listed, STRICT), (18, 0, 0, 0));
    assert_eq!(refused(&statistics, trace(&["0 0 T 8 0 0"]), STRICT), ACCEPTED);
    // The processor that a message names is none of the record.
    let send = trace(&["-3 -21 T 0 0 3 2 8 1 7"]);
    assert_eq!(refused(&send, &listed, STRICT), ACCEPTED);
}

// "6 Merge" 5: what is asked, and in which order.

#[test]
fn refusal_1_comes_first() {
    let good = trace(&["0 0 T 0 0 0"]);
    for choice in [0, 3, 4, 257, 1 << 16, u32::MAX, 0x8000_0001] {
        assert_eq!(refused("", "", choice), (1, 0, 0, 0));
        assert_eq!(refused(&good, &good, choice), (1, 0, 0, 0));
        assert_eq!(into_room(good.as_bytes(), b"", choice, 0).0.number, 1);
        for (bad, _) in refused_by_itself() {
            assert_eq!(refused(&bad, &good, choice), (1, 0, 0, 0));
            assert_eq!(refused(&good, &bad, choice), (1, 0, 0, 0));
        }
    }
}

/// A processor in both, and no room.
#[test]
fn the_order_of_18_and_16() {
    let number_of = |first: &[u8], second: &[u8], room| into_room(first, second, STRICT, room).0.number;
    let [zero, one] = [&b"0 0 0.000000 0 0 0\n"[..], b"0 0 0.000000 1 0 0\n"];
    assert_eq!(number_of(zero, one, 38), 0);
    assert_eq!(number_of(zero, one, 37), 16);
    assert_eq!(number_of(zero, zero, 37), 18);
    assert_eq!(number_of(zero, zero, 0), 18);
    for (bad, (number, ..)) in refused_by_itself() {
        let behind = [&b"0 0 0.000000 1 0 0\n"[..], &bad].concat();
        let behind = if number == 12 { &bad } else { &behind };
        assert_eq!(number_of(behind, one, 0), number);
        assert_eq!(number_of(one, behind, 0), number);
    }
}

#[test]
fn matching_and_the_clock_are_not_asked() {
    let receive = trace(&["-4 -52 T 1 0 3 2 8 1 0"]);
    let send = trace(&["-3 -21 0.000001 0 0 3 2 7 1 1"]);
    assert_eq!(merged(&receive, "", STRICT), receive);
    assert_eq!(read_again(merged(&receive, "", STRICT)), (13, 1));
    assert_eq!(read_again(merged(&send, &receive, STRICT)), (14, 1));
    assert_eq!(merged(TRACE_B, "", STRICT), TRACE_B);
    assert_eq!(merged("", TRACE_B, STRICT), TRACE_B);
}

// "6 Merge" 6: the room.

#[test]
fn room_that_just_fits() {
    let [first, second] = ["0 0 0.000002 0 0 0\n", "0 0 0.000001 1 0 0\n"];
    let needed = first.len() + second.len();
    let in_room = |room| into_room(first.as_bytes(), second.as_bytes(), STRICT, room);
    for room in [needed, needed + 1, needed + 1_000] {
        let (answer, text) = in_room(room);
        assert_eq!(answer, Merged { written: needed as u64, ..Merged::default() });
        assert_eq!(text, [second, first].concat().as_bytes());
    }
    for room in [0, 1, first.len(), second.len() + 1, needed - 1] {
        assert_eq!(in_room(room), (Merged { number: 16, ..Merged::default() }, vec![]));
    }
}

#[test]
fn empty_traces() {
    assert_eq!(into_room(b"", b"", STRICT, 0), (Merged::default(), vec![]));
    assert_eq!(into_room(b"", b"", LENIENT, 9), (Merged::default(), vec![]));
    assert_eq!(merged(TRACE_A, "", STRICT), TRACE_A);
    assert_eq!(merged("", TRACE_A, STRICT), TRACE_A);
    assert_eq!(into_room(b"", TRACE_A.as_bytes(), STRICT, TRACE_A.len() - 1).0.number, 16);
}
