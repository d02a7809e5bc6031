//! Request 5 of document 02, "Tell us the column": each corner with its column, counted by hand. Strict and
//! latencies 0 unless it is said.
//!
//! A line that begins `-3 0 T 0 0`, T being the time 0.000000, has its fields at the columns 1, 4, 6, 15 and
//! 17, its data count at 19 and what follows a count of one digit from 21 on.

mod common;

use common::{LENIENT, RECEIVES, SENDS, STRICT, TRACE_B, judged, refused, trace};
use reference::generator::flat_table;
use reference::levels::Levels;
use reference::report::report;
use reference::{Answer, Asked, Choice, Inputs, LATENCIES, MAX_BYTES, MAX_RECORDS, judge, line};

/// Number and column of a line, the only one of its trace.
#[track_caller]
fn alone(text: &str) -> (u64, u64) {
    let (number, line, column) = refused(trace(&[text]), STRICT);
    assert_eq!(line, u64::from(number != 0), "{text}");
    (number, column)
}

/// The same where the line has no LF.
#[track_caller]
fn unended(text: &str) -> (u64, u64) {
    let (number, line, column) = refused(trace(&[text]).trim_end_matches('\n'), STRICT);
    assert_eq!(line, 1, "{text}");
    (number, column)
}

/// Number and column, the same under both choices.
#[track_caller]
fn both(text: &str) -> (u64, u64) {
    let (number, _, column) = refused(trace(&[text]), LENIENT);
    assert_eq!(alone(text), (number, column), "{text}");
    (number, column)
}

// "5 Column" 1: no LF.

#[test]
fn no_lf_comes_before_whatever_else_is_bad() {
    assert_eq!(unended("-3 0 x 0 0 0"), (5, 13));
    assert_eq!(unended("-3 0 T 0 0 0"), (5, 20));
    assert_eq!(unended("-3 0 T 0 0 0 "), (5, 21));
    assert_eq!(unended("x"), (5, 2));
    assert_eq!(unended(" "), (5, 2));
    assert_eq!(unended("-5 0 T 0 0 0"), (5, 20));
    assert_eq!(unended("-5 0 T 0 0 0 x"), (5, 22));
    assert_eq!(unended("-3 -62 T 0 0 0"), (5, 22));
    assert_eq!(unended("-3 0 T 64 0 0"), (5, 21));
    assert_eq!(unended("-3 0 T 0 0 17"), (5, 21));
    assert_eq!(unended("-3 0 T 0 0 2 3"), (5, 22));
    assert_eq!(unended("-3 0 T 0 0 1 2 x"), (5, 24));
    assert_eq!(unended("-3 -21 T 0 0 0"), (5, 22));
}

#[test]
fn no_lf_at_every_place_of_a_line() {
    for text in [
        "-3 -21 T 0 0 3 2 8 1 1",
        "-4 0 T 63 0 2 5 T -999999999.999999",
        "-101 -1 T 6 0 2 \"%d%lf\" 0 0.000523 1 0.001013",
        "x  -3\t\r y 0 0 0 0 0",
    ] {
        let line = trace(&[text]);
        let whole = line.trim_end_matches('\n');
        for cut in 1..=whole.len() {
            for asked in [STRICT, LENIENT] {
                assert_eq!(refused(&whole[..cut], asked), (5, 1, cut as u64 + 1), "{}", &whole[..cut]);
                let behind = format!("0 0 T 0 0 0\n-2 0 T 1 0 1 2 999999999\n{}", &whole[..cut]);
                let behind = behind.replace('T', "-0.000001");
                assert_eq!(refused(&behind, asked), (5, 3, cut as u64 + 1), "{behind}");
            }
        }
    }
    // Nothing behind the last LF is no line.
    assert_eq!(refused(trace(&["0 0 T 0 0 0"]), STRICT), (0, 0, 0));
}

// 2: fewer than six fields.

#[test]
fn fewer_than_six_fields_come_before_a_bad_one() {
    assert_eq!(both("x y"), (5, 4));
    assert_eq!(both(""), (5, 1));
    assert_eq!(both("-3"), (5, 3));
    assert_eq!(both("-3 "), (5, 4));
    assert_eq!(both("-3 0"), (5, 5));
    assert_eq!(both("-3 0 T"), (5, 14));
    assert_eq!(both("-3 0 T 0"), (5, 16));
    assert_eq!(both("-3 0 T 0 0"), (5, 18));
    assert_eq!(both("x 0 T 0 0"), (5, 17));
    assert_eq!(both("-3 x T 0 0"), (5, 18));
    assert_eq!(both("-3 0 x 0 0"), (5, 11));
    assert_eq!(both("-3 0 T x 0"), (5, 18));
    assert_eq!(both("-3 0 T 0 x"), (5, 18));
    assert_eq!(both("-5 -62 x 64 1"), (5, 14));
    // Five fields, all empty.
    assert_eq!(both("    "), (5, 5));
}

// 3: an empty field.

#[test]
fn an_empty_field_begins_where_its_first_byte_would_stand() {
    assert_eq!(both("-3 0  0 0 0"), (6, 6));
    assert_eq!(both("-3 0 T 0 0 "), (5, 19));
    assert_eq!(both(" 0 T 0 0 0"), (5, 1));
    assert_eq!(both("-3  T 0 0 0"), (5, 4));
    assert_eq!(both("-3 0 T  0 0"), (5, 15));
    assert_eq!(both("-3 0 T 0  0"), (5, 17));
    assert_eq!(both("-3 0 T 0 0  0"), (5, 19));
    assert_eq!(both("-3 0 T 0 0 1  7"), (5, 21));
    assert_eq!(both("-3 0 T 0 0 1 2 "), (5, 23));
    assert_eq!(both("-3 0 T 0 0 2 2  7"), (5, 23));
    assert_eq!(both("-3 0 T 0 0 2 2 7 "), (5, 25));
    // Six fields, all empty: a doubled or leading space makes one.
    assert_eq!(both("     "), (5, 1));
    assert_eq!(both(" -3 0 T 0 0 0"), (5, 1));
    assert_eq!(both("-3  0 T 0 0 0"), (5, 4));
}

// The six fields left to right, each bad alone and with all behind it.

#[test]
fn the_six_fields_left_to_right() {
    let columns = [(5, 1), (5, 4), (6, 6), (5, 15), (5, 17), (5, 19)];
    let good = ["-3", "0", "0.000000", "0", "0", "0"];
    for (place, expected) in columns.into_iter().enumerate() {
        for bad in ["x", "", "-0", "00", "\t", "0.0"] {
            let mut fields = good;
            fields[place] = bad;
            assert_eq!(both(&fields.join(" ")), expected, "{bad} at {place}");
            fields[place..].fill(bad);
            assert_eq!(both(&fields.join(" ")), expected, "{bad} from {place} on");
        }
    }
    assert_eq!(both("-5 0 T 0 0 x"), (5, 19));
    assert_eq!(both("-3 -62 T 0 0 x"), (5, 21));
    assert_eq!(both("-3 0 T 64 0 x"), (5, 20));
    assert_eq!(both("-3 0 T 64 x 0"), (5, 18));
    // Fields of other widths.
    assert_eq!(both("-999999999 -999999999 -999999999.999999 -999999999 -999999999 x"), (5, 63));
    assert_eq!(both("999999999 999999999 x 0 0 0"), (6, 21));
}

// 4: a field too many.

#[test]
fn a_field_too_many_is_its_first_byte() {
    assert_eq!(both("-3 0 T 0 0 0 2"), (5, 21));
    assert_eq!(both("-3 0 T 0 0 0 "), (5, 21));
    assert_eq!(both("-3 0 T 0 0 0 2 7"), (5, 21));
    assert_eq!(both("-3 0 T 0 0 0  x"), (5, 21));
    assert_eq!(both("-3 0 T 0 0 1 2 7 7"), (5, 25));
    assert_eq!(both("-3 0 T 0 0 1 2 7 "), (5, 25));
    assert_eq!(both("-3 0 T 0 0 1 5 T T"), (5, 32));
    // Of several the first, whether a later one is bad or not.
    assert_eq!(both("-3 0 T 0 0 1 2 7 7 x"), (5, 25));
    assert_eq!(both("-3 0 T 0 0 1 2 7 x 7"), (5, 25));
    assert_eq!(both("-3 0 T 0 0 1 2 7  7"), (5, 25));
    assert_eq!(both("-3 -21 T 0 0 3 2 8 1 1 0"), (5, 31));
    assert_eq!(both("-3 -21 T 0 0 3 2 -1 1 64 0"), (5, 33));
}

// 5: the end of an unlisted line.

#[test]
fn the_end_of_an_unlisted_line() {
    assert_eq!(both("-5 0 T 0 0 0 x y"), (5, 21));
    assert_eq!(both("-5 0 T 0 0 0 "), (5, 21));
    assert_eq!(both("-5 0 T 0 0 0  "), (5, 21));
    assert_eq!(both("-5 0 T 0 0 1"), (5, 20));
    assert_eq!(both("-5 0 T 0 0 1 "), (5, 21));
    assert_eq!(both("-5 0 T 0 0 999"), (5, 22));
    assert_eq!(both("-5 0 T 0 0 999 "), (5, 23));
    assert_eq!(both("-3 -1 T 0 0 0 x"), (5, 22));
    assert_eq!(both("-3 -1 T 0 0 17"), (5, 22));
    assert_eq!(both("-3 -1 T 0 0 17 "), (5, 23));
    // Its processor and its process are not asked.
    assert_eq!(both("-5 0 T 64 1 0 x"), (5, 22));
    for text in ["-5 0 T 0 0 1  ", "-5 0 T 0 0 1 x", "-5 0 T 0 0 17 x y  z", "-5 0 T 64 1 0"] {
        assert_eq!(alone(text), (7, 1), "{text}");
        assert_eq!(refused(trace(&[text]), LENIENT), (0, 0, 0), "{text}");
    }
}

// 6: the data count.

#[test]
fn a_count_above_16_is_its_own_column() {
    assert_eq!(both("-3 0 T 0 0 17"), (5, 19));
    assert_eq!(both("-3 0 T 0 0 17 "), (5, 19));
    assert_eq!(both("-3 0 T 0 0 17 x"), (5, 19));
    assert_eq!(both("-3 0 T 0 0 17 3 x"), (5, 19));
    assert_eq!(both(&format!("-3 0 T 0 0 17 2{}", " 1".repeat(17))), (5, 19));
    assert_eq!(both(&format!("-3 0 T 0 0 17 2{}", " x".repeat(3))), (5, 19));
    assert_eq!(both("-3 0 T 0 0 999"), (5, 19));
    assert_eq!(both("-3 -21 T 0 0 17 2 8 1 1"), (5, 21));
    // 9 comes before it,
    assert_eq!(both("-3 0 T 64 0 17"), (9, 15));
    assert_eq!(both("-3 0 T 0 1 17"), (9, 17));
    // but not before one that is not 0 to 999.
    for count in ["1000", "-1", "1000000000", "x", "017"] {
        assert_eq!(both(&format!("-3 0 T 0 0 {count} x")), (5, 19), "{count}");
        assert_eq!(both(&format!("-3 0 T 64 1 {count}")), (5, 20), "{count}");
        assert_eq!(both(&format!("-5 0 T 0 0 {count} x")), (5, 19), "{count}");
        assert_eq!(both(&format!("-3 -62 T 0 0 {count}")), (5, 21), "{count}");
    }
}

// 7: descriptor and data left to right, a missing or surplus field last.

#[test]
fn descriptor_and_data() {
    assert_eq!(both("-3 0 T 0 0 2 3"), (5, 21));
    assert_eq!(both("-3 0 T 0 0 2 2 x"), (5, 23));
    assert_eq!(both("-3 0 T 0 0 2 2 1 x 3"), (5, 25));
    assert_eq!(both("-3 0 T 0 0 2 2 1"), (5, 24));
    assert_eq!(both("-3 0 T 0 0 2"), (5, 20));
    assert_eq!(both("-3 0 T 0 0 2 "), (5, 21));
    assert_eq!(both("-3 0 T 0 0 2 2"), (5, 22));
    assert_eq!(both("-3 0 T 0 0 2 5"), (5, 22));
    for descriptor in ["3", "02", "25", "-2", "\"%d\"", "2.0", ""] {
        assert_eq!(both(&format!("-3 0 T 0 0 1 {descriptor} x")), (5, 21), "{descriptor}");
        assert_eq!(both(&format!("-3 0 T 0 0 1 {descriptor} 1 1 1")), (5, 21), "{descriptor}");
    }
    // Each form under the other descriptor.
    assert_eq!(both("-3 0 T 0 0 2 2 1 T"), (5, 25));
    assert_eq!(both("-3 0 T 0 0 2 5 T 1"), (5, 32));
    assert_eq!(both("-3 0 T 0 0 2 5 1"), (5, 23));
}

/// Sixteen data of one width, the first at column 24: each bad, each missing, and one too many.
fn sixteen(descriptor: &str, datum: &str) {
    let width = datum.len();
    let start = format!("-3 0 T 0 0 16 {descriptor}");
    let good = vec![datum; 16];
    let of = |data: &[&str]| both(&[&[start.as_str()], data].concat().join(" "));
    let column_of = |place: usize| (24 + place * (width + 1)) as u64;
    assert_eq!(of(&good), (0, 0));
    for place in 0..16 {
        for bad in ["x", "", "-", "1.0", "0000000000"] {
            let mut data = good.clone();
            data[place] = bad;
            assert_eq!(of(&data), (5, column_of(place)), "{bad} at {place}");
            // With the one behind it bad as well, with the last one missing, and with one too many.
            data[place..].fill(bad);
            assert_eq!(of(&data), (5, column_of(place)), "{bad} from {place} on");
            assert_eq!(of(&data[..=place]), (5, column_of(place)), "{bad} last at {place}");
            assert_eq!(of(&[&data[..], &[datum]].concat()), (5, column_of(place)), "{bad} at {place} of 17");
        }
        // One past the last byte of the one before it.
        assert_eq!(of(&good[..place]), (5, column_of(place) - 1), "{place} of 16");
    }
    for surplus in [datum, "x", ""] {
        assert_eq!(of(&[&good[..], &[surplus]].concat()), (5, column_of(16)), "{surplus}");
        assert_eq!(of(&[&good[..], &[surplus, "x"]].concat()), (5, column_of(16)), "{surplus} and more");
    }
}

#[test]
fn each_of_sixteen_data() {
    sixteen("2", "1");
    sixteen("2", "-999999999");
    sixteen("5", "0.000000");
    sixteen("5", "-999999999.999999");
}

// 8: refusals 7, 8 and 9.

#[test]
fn what_makes_a_line_unlisted() {
    for text in ["-5 0 T 0 0 0", "-5 -1 T 0 0 0", "-5 -62 T 0 0 0", "-5 -21 T 64 1 0", "1 0 T 0 0 1 x"] {
        assert_eq!(alone(text), (7, 1), "{text}");
    }
    assert_eq!(alone("-3 -1 T 0 0 0"), (7, 4));
    assert_eq!(alone("-3 -81 T 64 1 17 x"), (7, 4));
    assert_eq!(alone("0 -1 T 0 0 0"), (7, 3));
    assert_eq!(alone("0 -999999999 T 0 0 0"), (7, 3));
}

#[test]
fn an_event_that_is_not_handled() {
    assert_eq!(both("-3 -62 T 0 0 0"), (8, 4));
    assert_eq!(both("0 -22 T 0 0 0"), (8, 3));
    assert_eq!(both("-4 -80 T 64 1 17 x"), (8, 4));
    assert_eq!(both("-2 -50 T 0 0 0 2"), (8, 4));
}

#[test]
fn processor_and_process() {
    assert_eq!(both("-3 0 T 64 0 0"), (9, 15));
    assert_eq!(both("-3 0 T -1 0 0"), (9, 15));
    assert_eq!(both("-3 0 T 64 1 0"), (9, 15));
    assert_eq!(both("-3 0 T 0 1 0"), (9, 17));
    assert_eq!(both("-3 0 T 63 -1 0"), (9, 18));
    assert_eq!(both("-4 999999999 999999999.999999 64 0 0 x"), (9, 31));
    assert_eq!(both("-4 999999999 999999999.999999 63 1 17 x"), (9, 34));
    assert_eq!(both("-3 -21 T 64 1 0"), (9, 17));
}

// 9: refusal 10.

#[test]
fn a_message_without_its_three_good_data() {
    for start in SENDS.into_iter().chain(RECEIVES) {
        // The data count at 21, the descriptor at 23, length, type and processor from 25 on.
        for (data, column) in [
            ("0", 21),
            ("1 2 8", 21),
            ("2 2 -8 1", 21),
            ("4 2 8 1 1 0", 21),
            ("4 5 T T T T", 21),
            ("1 5 T", 21),
            ("3 5 T T T", 23),
            ("3 5 -0.000001 T 64.000000", 23),
            ("3 2 -1 1 1", 25),
            ("3 2 -1 1 64", 25),
            ("3 2 -999999999 -1 -1", 25),
            ("3 2 8 1 64", 29),
            ("3 2 8 -1 -1", 30),
            ("3 2 999999999 -999999999 64", 46),
        ] {
            assert_eq!(both(&format!("{start} T 0 0 {data}")), (10, column), "{start} {data}");
        }
        let (sixteen, seventeen) = (" 1".repeat(16), " 1".repeat(17));
        assert_eq!(both(&format!("{start} T 0 0 16 2{sixteen}")), (10, 21), "{start}");
        // After all 5s.
        assert_eq!(both(&format!("{start} T 0 0 17 2{seventeen}")), (5, 21), "{start}");
        assert_eq!(both(&format!("{start} T 0 0 4 2 -1 1 64 x")), (5, 33), "{start}");
        assert_eq!(both(&format!("{start} T 0 0 4 2 -1 1 64")), (5, 32), "{start}");
        assert_eq!(both(&format!("{start} T 0 0 2 2 8 1 1")), (5, 29), "{start}");
        assert_eq!(both(&format!("{start} T 0 0 3 5 T x T")), (5, 34), "{start}");
        // Any type is good.
        assert!(matches!(both(&format!("{start} T 0 0 3 2 8 -999999999 0")), (0 | 13, 0)), "{start}");
    }
}

// 10: the other refusals, and what a column counts.

#[test]
fn other_refusals_have_no_column() {
    let receive = "-4 -52 T 1 0 3 2 8 1 0";
    let short_send = "-3 -21 T 0 0 3 2 7 1 1";
    assert_eq!(refused(trace(&["0 0 0.000001 0 0 0", "0 0 T 0 0 0"]), STRICT), (11, 2, 0));
    assert_eq!(refused(trace(&["0 0 T 0 0 0"; MAX_RECORDS + 1]), STRICT), (12, 2_049, 0));
    assert_eq!(refused(trace(&["0 0 T 0 0 0", receive]), STRICT), (13, 2, 0));
    assert_eq!(refused(trace(&[receive, short_send]), STRICT), (14, 1, 0));
    let levels = Levels { picl: 1, user: 1, trace: 1 };
    assert_eq!(refused(trace(&["0 0 T 0 0 0"]), Asked::expecting(1, levels)), (17, 1, 0));
    assert_eq!(refused("x", Asked::choice_alone(3)), (1, 0, 0));
    assert_eq!(refused(vec![b'x'; MAX_BYTES + 1], STRICT), (4, 0, 0));
    assert_eq!(judged(TRACE_B, &flat_table(1), STRICT).0, Answer { number: 15, ..Answer::default() });
    let number_of = |latencies: &[u32], trace: &[u8]| {
        let mut times = vec![0; MAX_RECORDS];
        judge(Inputs { trace, latencies, asked: STRICT, times: &mut times, wanted: true, room: &mut [] })
    };
    assert_eq!(number_of(&[0; LATENCIES - 1], b"x"), Answer { number: 2, ..Answer::default() });
    assert_eq!(number_of(&flat_table(u32::MAX), b"x"), Answer { number: 3, ..Answer::default() });
    let any = trace(&["0 0 T 0 0 0"]);
    assert_eq!(number_of(&flat_table(0), any.as_bytes()), Answer { number: 16, ..Answer::default() });
}

#[test]
fn an_accepted_trace_has_no_column() {
    for text in ["", "0 0 0.000000 0 0 0\n", "-5 0 0.000000 0 0 1 x\n"] {
        assert_eq!(refused(text, LENIENT), (0, 0, 0));
    }
}

/// Whatever else they are, to a person or in another encoding.
#[test]
fn every_byte_is_one() {
    for (bytes, column) in [
        (&b"\t"[..], 2),
        (b"\t\t 0", 5),
        (b"\r", 2),
        (b"-3 0\r", 6),
        (b"\0\0\0", 4),
        (b"\xff\x80\xa0", 4),
        ("é 日本 x".as_bytes(), 12),
        (b"\x1b[0m\x08\x0b\x0c", 8),
    ] {
        // Fewer than six fields, or no LF.
        for end in [&b"\n"[..], b""] {
            let trace = [bytes, end].concat();
            assert_eq!(refused(&trace, STRICT), (5, 1, column), "{bytes:?}");
            assert_eq!(refused([b"-3 0 0.000000 0 0 0\n", &trace[..]].concat(), STRICT), (5, 2, column));
        }
    }
    // A bad field of such bytes begins where it begins.
    for bad in [&b"\t"[..], b"\r", b"\xff\xff", "é".as_bytes(), b"1\t", b"\0"] {
        let line = |before: &[u8], behind: &[u8]| [before, bad, behind, b"\n"].concat();
        assert_eq!(refused(line(b"", b" 0 0.000000 0 0 0"), STRICT), (5, 1, 1));
        assert_eq!(refused(line(b"-3 0 ", b" 0 0 0"), STRICT), (6, 1, 6));
        assert_eq!(refused(line(b"-3 0 0.000000 0 0 ", b""), STRICT), (5, 1, 19));
        assert_eq!(refused(line(b"-3 0 0.000000 0 0 1 2 ", b" 1"), STRICT), (5, 1, 23));
    }
    // CR before the LF is a part of the last field, and a tab parts none.
    assert_eq!(refused(b"-3 0 0.000000 0 0 0\r\n", STRICT), (5, 1, 19));
    assert_eq!(refused(b"-3 0 0.000000 0 0 1 2 7\r\n", STRICT), (5, 1, 23));
    assert_eq!(refused(b"-3 0 0.000000 0 0 0 \r\n", STRICT), (5, 1, 21));
    assert_eq!(refused(b"-3\t0 0.000000 0 0 0\n", STRICT), (5, 1, 20));
    assert_eq!(refused(b"-3\t0 0.000000 0 0 0 7\n", STRICT), (5, 1, 1));
    assert_eq!(refused(b"-5 0 0.000000 0 0 1 \xff\xfe\t\r", LENIENT), (5, 1, 25));
}

#[test]
fn the_longest_line() {
    for length in [MAX_BYTES, MAX_BYTES - 1] {
        for byte in [b'x', b' ', b'0', 0xff] {
            let mut line = b"-5 0 0.000000 0 0 1 ".to_vec();
            line.resize(length, byte);
            assert_eq!(refused(&line, LENIENT), (5, 1, length as u64 + 1));
        }
    }
    // A field too many stands at its own place, however long the line.
    let many = format!("-3 0 0.000000 0 0 1 2 7{}\n", " 7".repeat(20_000));
    assert_eq!(refused(many, STRICT), (5, 1, 25));
    let wide = format!("-3 0 0.000000 0 0 1 2 {}\n", "7".repeat(60_000));
    assert_eq!(refused(wide, STRICT), (5, 1, 23));
}

#[test]
fn a_column_counts_from_its_own_line() {
    let bad =
        ["x", "-3 0 T 0 0 0 2", "-3 0 y 0 0 0", "-3 -62 T 0 0 0", "-3 0 T 64 0 0", "-3 -21 T 0 0 3 2 8 1 64"];
    let expected = [(5, 2), (5, 21), (6, 6), (8, 4), (9, 15), (10, 29)];
    let good = ["0 0 T 0 0 0", "-2 999999999 T 1 0 2 5 T -999999999.999999", "-3 -21 T 2 0 3 2 8 1 1"];
    for (bad, (number, column)) in bad.into_iter().zip(expected) {
        for lines in 0..=good.len() {
            let all = [&good[..lines], &[bad], &good[lines..]].concat();
            assert_eq!(refused(trace(&all), STRICT), (number, lines as u64 + 1, column), "{bad}");
        }
        // A later line's fault, further left or not, is not looked at.
        let later = trace(&[good[1], bad, "", "x", good[0]]);
        assert_eq!(refused(later, STRICT), (number, 2, column), "{bad}");
        // Lines that are passed over count as lines, and their bytes not as columns.
        let passed = trace(&["-5 0 T 0 0 1 x", "-5 0 T 0 0 999      ", bad]);
        assert_eq!(refused(passed, LENIENT), (number, 3, column), "{bad}");
    }
}

// 11: the report.

#[test]
fn the_report_has_the_column_always() {
    let said = |trace: &str, asked| report(&judged(trace, &flat_table(0), asked).0);
    assert_eq!(said("-3 0 0.000000 0 0 2 2 1 x\n", STRICT), "refused 5 line 1 column 25\n");
    assert_eq!(said("0 0 0.000000 0 0 0\n0 0 1 0 0 0\n", STRICT), "refused 6 line 2 column 5\n");
    assert_eq!(said("-4 -52 0.000000 1 0 3 2 8 1 0\n", STRICT), "refused 13 line 1 column 0\n");
    assert_eq!(said("", Asked::choice_alone(0)), "refused 1 line 0 column 0\n");
    // The request's own: a line with sixteen data, the fifth of them bad.
    let sixteen = "0 0 0.000000 0 0 16 2 1 2 3 4 x 6 7 8 9 10 11 12 13 14 15 16\n";
    let long = "0 0 0.000000 0 0 0\n".repeat(811) + sixteen;
    assert_eq!(said(&long, STRICT), "refused 5 line 812 column 31\n");
}

/// Of all lines that the parts of these make: a column comes with every refusal from 5 to 10 that a line
/// has, it is a place of the line or one past its last byte, and there a field begins or the line ends.
#[test]
fn a_column_is_where_a_field_begins_or_the_line_ends() {
    let starts = ["-3 0", "-5 0", "-3 -21", "-4 -62", "0 -1", "x 0", "-3 ", " ", "-3"];
    let times = ["0.000000", "x", "-999999999.999999", ""];
    let places = ["0 0", "64 0", "0 1", "x 0", "0 ", "", "-1 x"];
    let ends =
        ["0", "0 ", "0 x", "1", "1 ", "1 2", "1 2 7", "1 3 7", "3 2 8 1 1", "3 5 8", "17 2", "1000", ""];
    for start in starts {
        for time in times {
            for place in places {
                for end in ends {
                    let text = [start, time, place, end].join(" ");
                    for choice in [Choice::Strict, Choice::Lenient] {
                        let Err(fault) = line::read(text.as_bytes(), choice) else { continue };
                        let place = fault.column as usize - 1;
                        let begins = place == 0 || text.as_bytes()[place - 1] == b' ';
                        assert!((5..=10).contains(&fault.number), "{text}");
                        assert!(begins || place == text.len(), "{text} {fault:?}");
                    }
                }
            }
        }
    }
}
