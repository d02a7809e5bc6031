//! Request 8 of document 02: statistics records, their forms and their comparison.

mod common;

use common::{LENIENT, STRICT, TRACE_A, judged, number, refused, trace, written};
use reference::generator::{flat_table, workload};
use reference::{Answer, Asked, Inputs, LATENCIES, MAX_RECORDS, MAX_TIME, judge};

const TABLE_20: &str = include_str!("data/table20");
/// Behind the two sends that it lacks, from processors 0 and 5.
const TABLE_20_SENT: &str = include_str!("data/table20_sent");

const COMPARED: Asked = Asked::comparing(1);

const ENTRY: &str = "-3 7 0.000010 0 0 0";
const EXIT: &str = "-4 7 0.000030 0 0 0";
const MARK: &str = "-2 7 0.000040 0 0 0";

/// Number and line with the comparison on; the column has to be 0.
#[track_caller]
fn compared(lines: &[&str]) -> (u64, u64) {
    number(trace(lines), COMPARED)
}

/// Whether statistics behind these lines, on processor 0 at their end, agree with them.
#[track_caller]
fn agrees(lines: &[&str], statistics: &str) -> bool {
    let (start, pairs) = statistics.split_once(' ').unwrap();
    let count = pairs.split(' ').count() / 2;
    let descriptor = if start == "-101" { "\"%d%lf\"" } else { "\"%d%d\"" };
    let last = format!("{start} -1 999999999.999999 0 0 {count} {descriptor} {pairs}");
    let (refusal, line) = compared(&[lines, &[&last]].concat());
    assert!((refusal, line) == (0, 0) || (refusal, line) == (19, lines.len() as u64 + 1), "{refusal} {line}");
    refusal == 0
}

// Listed as others are.

#[test]
fn they_are_listed_and_join_their_processors_order() {
    for kind in ["-101", "-102", "-103"] {
        for event in ["-1", "0", "-21", "-52", "-62", "-80", "-905", "-1001", "999999999", "-999999999"] {
            let line = |time: &str| format!("{kind} {event} {time} 7 0 0\n");
            for asked in [STRICT, LENIENT, COMPARED] {
                let (answer, times) = judged(line("0.000005"), &flat_table(0), asked);
                assert_eq!((answer.number, answer.listed, answer.passed), (0, 1, 0), "{kind} {event}");
                assert_eq!(times, [5]);
                // 11 behind another record of its processor, and before one.
                assert_eq!(number(trace(&["0 0 0.000006 7 0 0"]) + &line("0.000005"), asked), (11, 2));
                assert_eq!(number(line("0.000005") + &trace(&["0 0 0.000004 7 0 0"]), asked), (11, 2));
                assert_eq!(number(trace(&["0 0 0.000006 8 0 0"]) + &line("0.000005"), asked), (0, 0));
            }
            // 9 is asked, 7, 8 and 10 are not.
            assert_eq!(number(line("0.000000").replace("7 0 0", "^64 1 0"), STRICT), (9, 1));
            assert_eq!(number(line("0.000000").replace("7 0 0", "7 ^1 0"), STRICT), (9, 1));
        }
    }
    assert_eq!(number(trace(&["^-100 -1 T 0 0 0"]), STRICT), (7, 1));
    assert_eq!(number(trace(&["^-104 -1 T 0 0 0"]), STRICT), (7, 1));
    let listed = "-102 -1 0.000000 0 0 0\n".repeat(MAX_RECORDS);
    assert_eq!(number(&listed, COMPARED), (0, 0));
    assert_eq!(number(listed + "-102 -1 0.000000 1 0 0\n", COMPARED), (12, 2_049));
}

/// A receive that moves takes the statistics behind it with it.
#[test]
fn they_are_moved_and_written() {
    let text = "\
-3 -21 0.000010 0 0 3 2 8 1 1
-4 -52 0.000009 1 0 3 2 8 1 0
-102 -1 0.000009 1 0 1 \"%d%d\" -52 0
";
    let (answer, times) = judged(text, &flat_table(5), COMPARED);
    assert_eq!((answer.verdict, answer.listed, times), (2, 3, vec![10, 15, 15]));
    let moved = text.replace("0.000009", "0.000015");
    assert_eq!(written(text, 5), moved.as_bytes());
    // 17 is at the processor's last listed record, which is the statistics.
    let asked = Asked { levels: 1, ..STRICT };
    assert_eq!(number(trace(&["0 0 T 0 0 0", "-102 -1 T 0 0 0"]), asked), (17, 2));
}

// Their forms.

#[test]
fn descriptors() {
    for (kind, good, pair) in
        [("-101", "\"%d%lf\"", "0 0.000000"), ("-102", "\"%d%d\"", "0 0"), ("-103", "\"%d%d\"", "0 0")]
    {
        for asked in [STRICT, LENIENT, COMPARED] {
            assert_eq!(number(trace(&[&format!("{kind} 0 T 0 0 1 {good} {pair}")]), asked), (0, 0));
            for bad in [
                "2", "5", "\"%d\"", "%d%d", "%d%lf", "\"%d%d", "%d%d\"", "\"%d%lf", "'%d%d'", "\"%D%d\"",
                "\"%d%f\"", "\"%d%ld\"", "\"%d%d\"\"", "\"%d%lf\"x", "\"\"", "",
            ] {
                let line = format!("{kind} 0 T 0 0 1 ^{bad} {pair}");
                assert_eq!(number(trace(&[&line]), asked), (5, 1), "{line}");
            }
            let other = if kind == "-101" { "\"%d%d\"" } else { "\"%d%lf\"" };
            assert_eq!(number(trace(&[&format!("{kind} 0 T 0 0 1 ^{other} {pair}")]), asked), (5, 1));
        }
    }
    // In other records they are none.
    for kind in ["-2", "-3", "-4", "0"] {
        assert_eq!(number(trace(&[&format!("{kind} 0 T 0 0 2 ^\"%d%d\" 0 0")]), STRICT), (5, 1));
        assert_eq!(number(trace(&[&format!("{kind} 0 T 0 0 2 ^\"%d%lf\" 0 0.000000")]), STRICT), (5, 1));
    }
}

#[test]
fn no_pair() {
    for kind in ["-101", "-102", "-103"] {
        for event in ["-1", "0", "-62"] {
            let line = format!("{kind} {event} T 0 0 0");
            assert_eq!(compared(&[ENTRY, &line.replace('T', "0.000010")]), (0, 0));
            assert_eq!(number(trace(&[&format!("{line} ^")]), COMPARED), (5, 1));
            assert_eq!(number(trace(&[&format!("{line} ^\"%d%d\"")]), COMPARED), (5, 1));
        }
    }
}

#[test]
fn sixteen_pairs_and_seventeen() {
    for (kind, descriptor, pair) in
        [("-101", "\"%d%lf\"", " 9 0.000000"), ("-102", "\"%d%d\"", " 9 0"), ("-103", "\"%d%d\"", " -21 0")]
    {
        let line = |count: usize, pairs: usize| {
            format!("{kind} -1 T 0 0 {count} {descriptor}{}", pair.repeat(pairs))
        };
        assert_eq!(compared(&[&line(16, 16)]), (0, 0));
        // Too many by the count, by a pair and by half of one.
        let seventeen = line(17, 17).replace(" 17 ", " ^17 ");
        assert_eq!(number(trace(&[&seventeen]), COMPARED), (5, 1));
        assert_eq!(number(trace(&[&(line(16, 16) + " ^9")]), COMPARED), (5, 1));
        assert_eq!(number(trace(&[&(line(1, 1) + " ^9 0")]), COMPARED), (5, 1));
        // Too few by a pair, and by half of one.
        assert_eq!(number(trace(&[&(line(16, 15) + "^")]), COMPARED), (5, 1));
        let half = line(16, 15) + " 9^";
        assert_eq!(number(trace(&[&half]), COMPARED), (5, 1));
        assert_eq!(number(trace(&[&format!("{kind} -1 T 0 0 1 {descriptor}^")]), COMPARED), (5, 1));
        assert_eq!(number(trace(&[&format!("{kind} -1 T 0 0 1^")]), COMPARED), (5, 1));
    }
}

#[test]
fn the_form_of_each_half() {
    for (line, expected) in [
        ("-101 0 T 0 0 1 \"%d%lf\" -999999999 999999999.999999", (0, 0)),
        ("-101 0 T 0 0 1 \"%d%lf\" 7 -999999999.999999", (0, 0)),
        ("-101 0 T 0 0 1 \"%d%lf\" 7 ^-1", (5, 1)),
        ("-101 0 T 0 0 1 \"%d%lf\" 7 ^-0.000000", (5, 1)),
        ("-101 0 T 0 0 1 \"%d%lf\" 7 ^7", (5, 1)),
        ("-101 0 T 0 0 1 \"%d%lf\" ^0.000007 7", (5, 1)),
        ("-101 0 T 0 0 2 \"%d%lf\" 7 0.000007 ^x 0.000007", (5, 1)),
        ("-102 0 T 0 0 1 \"%d%d\" 999999999 -999999999", (0, 0)),
        ("-102 0 T 0 0 1 \"%d%d\" 7 ^-1.000000", (5, 1)),
        ("-102 0 T 0 0 1 \"%d%d\" 7 ^1000000000", (5, 1)),
        ("-102 0 T 0 0 1 \"%d%d\" ^-0 7", (5, 1)),
        ("-103 0 T 0 0 2 \"%d%d\" 7 7 7 ^", (5, 1)),
        ("-103 0 T 0 0 2 \"%d%d\" 7 7 ^ 7", (5, 1)),
    ] {
        for asked in [STRICT, LENIENT, COMPARED] {
            assert_eq!(number(trace(&[line]), asked), expected, "{line}");
        }
    }
}

// The comparison.

#[test]
fn counts_are_of_entries_and_marks() {
    let lines = [ENTRY, EXIT, MARK, "0 7 0.000040 0 0 0", "-102 7 0.000040 0 0 0", "-3 8 0.000040 0 0 0"];
    for told in 0..6 {
        assert_eq!(agrees(&lines, &format!("-102 7 {told}")), told == 2, "{told}");
        assert_eq!(agrees(&lines[1..], &format!("-102 7 {told}")), told == 1, "{told}");
        assert_eq!(agrees(&lines[..2], &format!("-102 7 {told}")), told == 1, "{told}");
        assert_eq!(agrees(&[], &format!("-102 7 {told}")), told == 0, "{told}");
    }
    assert!(agrees(&lines, "-102 7 -1") && agrees(&[], "-102 7 -1"));
    assert!(!agrees(&lines, "-102 7 -2") && !agrees(&[], "-102 7 -2"));
    // Each pair, and an event in two of them.
    assert!(agrees(&lines, "-102 7 2 8 1 9 0 7 2"));
    assert!(!agrees(&lines, "-102 7 2 8 1 9 1 7 2"));
    assert!(!agrees(&lines, "-102 7 2 8 1 9 0 7 3"));
}

#[test]
fn times_are_of_exits_less_entries() {
    // Twice, 20 and 5 microseconds.
    let lines = [ENTRY, EXIT, "-3 7 0.000031 0 0 0", "-4 7 0.000036 0 0 0"];
    for micros in 0..60 {
        let told = format!("-101 7 0.{micros:06}");
        assert_eq!(agrees(&lines, &told), (23..=27).contains(&micros), "{told}");
        assert_eq!(agrees(&lines[..2], &told), (19..=21).contains(&micros), "{told}");
        // Marks give no tolerance, and other events none, either.
        assert_eq!(agrees(&[ENTRY, EXIT, MARK, "-3 8 0.000040 0 0 0"], &told), (19..=21).contains(&micros));
    }
    assert!(agrees(&lines, "-101 7 -1.000000"));
    for told in ["-1.000001", "-0.999999", "-0.000001", "1.000000"] {
        assert!(!agrees(&lines, &format!("-101 7 {told}")), "{told}");
    }
}

#[test]
fn without_an_entry_and_an_exit_no_time_is_due() {
    for lines in [&[][..], &[MARK], &["0 7 0.000040 0 0 0"], &["-3 7 0.000010 1 0 0", "-4 7 0.000030 1 0 0"]]
    {
        assert!(agrees(lines, "-101 7 0.000000") && agrees(lines, "-101 7 -1.000000"));
        assert!(!agrees(lines, "-101 7 0.000001") && !agrees(lines, "-101 7 -0.000001"));
    }
}

#[test]
fn where_entries_and_exits_are_not_equally_many_no_time_is_compared() {
    for lines in [&[ENTRY][..], &[EXIT], &[ENTRY, EXIT, EXIT], &[ENTRY, ENTRY, EXIT]] {
        for told in ["0.000000", "0.000020", "-5.000000", "999999999.999999"] {
            assert!(agrees(lines, &format!("-101 7 {told}")), "{told}");
        }
        let entries = lines.iter().filter(|&&line| line == ENTRY).count();
        assert!(agrees(lines, &format!("-102 7 {entries}")));
        assert!(!agrees(lines, &format!("-102 7 {}", entries + 1)));
    }
}

#[test]
fn sums_may_be_negative_or_above_what_a_field_holds() {
    // The exit stands before the entry.
    let lines = ["-4 7 0.000010 0 0 0", "-3 7 0.000030 0 0 0"];
    assert!(agrees(&lines, "-101 7 -0.000020") && agrees(&lines, "-101 7 -0.000021"));
    assert!(!agrees(&lines, "-101 7 -0.000022") && !agrees(&lines, "-101 7 0.000020"));
    let ends = ["-3 7 -999999999.999999 0 0 0", "-4 7 999999999.999999 0 0 0"];
    for told in ["999999999.999999", "-999999999.999999", "0.000000"] {
        assert!(!agrees(&ends, &format!("-101 7 {told}")), "{told}");
    }
    // As many as there may be: the two sums differ by nearly 2^61, and nothing below that is told.
    let half = (MAX_RECORDS - 1) / 2;
    let many: Vec<&str> = [vec![ends[0]; half], vec![ends[1]; half]].concat();
    for told in ["999999999.999999", "-999999999.999999", "0.000000"] {
        assert!(!agrees(&many, &format!("-101 7 {told}")), "{told}");
    }
    let spent = 2 * MAX_TIME * half as i64;
    assert!(spent > 1 << 60);
}

#[test]
fn volumes_are_of_sends_and_receives() {
    let sends = ["-3 -21 T 0 0 3 2 8 1 0", "-3 -27 T 0 0 3 2 64 1 0", "-3 -21 T 0 0 3 2 3 1 0"];
    let receives = ["-4 -51 T 0 0 3 2 5 1 0", "-4 -58 T 0 0 3 2 32 1 0", "-4 -51 T 0 0 3 2 2 1 0"];
    // An exit of a send, an entry of a receive and a mark may have the same data.
    let others = ["-4 -21 T 0 0 3 2 100 1 0", "-3 -51 T 0 0 3 2 100 1 0", "-2 -52 T 0 0 3 2 100 1 0"];
    let lines = [sends, receives, others].concat();
    for told in 0..120 {
        assert_eq!(agrees(&lines, &format!("-103 -21 {told}")), told == 11, "{told}");
        // Receives take what they take: 5 of 8 bytes, and 2 of 3.
        assert_eq!(agrees(&lines, &format!("-103 -51 {told}")), told == 7, "{told}");
        assert_eq!(agrees(&lines, &format!("-103 -52 {told}")), told == 0, "{told}");
    }
    for event in [-27, -58, -60, -61, -28, -59, -901, 0, 7] {
        for told in [0, 5, 64, -2, 999_999_999] {
            assert!(agrees(&lines, &format!("-103 {event} {told}")), "{event} {told}");
        }
    }
    for event in [-21, -51, -52] {
        assert!(agrees(&lines, &format!("-103 {event} -1")));
        assert!(!agrees(&lines, &format!("-103 {event} -2")));
        assert!(agrees(&[], &format!("-103 {event} 0")) && !agrees(&[], &format!("-103 {event} 1")));
    }
}

#[test]
fn pairs_of_events_that_are_not_listed_are_not_compared() {
    let unlisted = [-1, -2, -10, -13, -20, -81, -200, -203, -905, -1000, -1001, -999_999_999];
    let not_handled = [-22, -26, -32, -50, -53, -56, -62, -80];
    for event in unlisted.into_iter().chain(not_handled) {
        for told in ["-101 E 5.000000", "-102 E 5", "-103 E 5", "-102 E -2"] {
            assert!(agrees(&[ENTRY], &told.replace('E', &event.to_string())), "{event} {told}");
        }
    }
    for event in [0, 999_999_999, -11, -21, -27, -29, -31, -51, -57, -59, -61, -401, -904, -914] {
        for told in ["-101 E 5.000000", "-102 E 5", "-102 E -2"] {
            assert!(!agrees(&[], &told.replace('E', &event.to_string())), "{event} {told}");
        }
    }
}

#[test]
fn compared_are_those_with_event_field_minus_1() {
    for event in ["0", "1", "-2", "-21", "-102", "-1001", "-999999999"] {
        for line in ["-101 E T 0 0 1 \"%d%lf\" 7 5.000000", "-102 E T 0 0 1 \"%d%d\" 7 5"] {
            assert_eq!(compared(&[&line.replace('E', event)]), (0, 0), "{event}");
            assert_eq!(compared(&[&line.replace('E', "-1")]), (19, 1));
        }
    }
}

/// "earlier records": earlier in the file, on that processor, whatever their time is.
#[test]
fn records_behind_and_of_other_processors_do_not_count() {
    let told = |count| format!("-102 -1 0.000050 0 0 1 \"%d%d\" 7 {count}");
    let entry = "-3 7 0.000050 0 0 0";
    assert_eq!(compared(&[&told(0), entry]), (0, 0));
    assert_eq!(compared(&[&told(1), entry]), (19, 1));
    assert_eq!(compared(&[entry, &told(1), entry, &told(2)]), (0, 0));
    assert_eq!(compared(&[entry, &told(1), entry, &told(1)]), (19, 4));
    let elsewhere = "-3 7 0.000001 1 0 0";
    assert_eq!(compared(&[elsewhere, &told(0)]), (0, 0));
    assert_eq!(compared(&[elsewhere, &told(1)]), (19, 2));
    assert_eq!(compared(&[elsewhere, entry, &told(1), &told(1).replace(" 0 0 1", " 1 0 1")]), (0, 0));
    // The first in the file, whichever processor it is of; a record type is as good as another.
    let wrong = |kind: &str, processor: u32| format!("{kind} -1 0.000050 {processor} 0 1 \"%d%d\" -21 5");
    assert_eq!(compared(&[&wrong("-103", 9), &wrong("-102", 0)]), (19, 1));
    assert_eq!(compared(&[&told(0), &wrong("-103", 9), &wrong("-102", 0)]), (19, 2));
}

// The switch, and the order of the refusals.

#[test]
fn a_switch_that_is_none_is_refusal_1() {
    let number_of = |asked, latencies: &[u32], times: usize, trace: &[u8]| {
        let mut times = vec![0; times];
        judge(Inputs { trace, latencies, asked, times: &mut times, wanted: false, room: &mut [] }).number
    };
    for statistics in [2, 3, u32::MAX, 1 << 16, 256] {
        let asked = Asked { statistics, ..STRICT };
        assert_eq!(number_of(asked, &flat_table(0), MAX_RECORDS, b""), 1);
        assert_eq!(number_of(asked, &flat_table(0), MAX_RECORDS, TRACE_A.as_bytes()), 1);
        assert_eq!(number_of(asked, &[0; LATENCIES - 1], MAX_RECORDS, b""), 1);
        assert_eq!(number_of(asked, &flat_table(u32::MAX), 0, b"x"), 1);
        assert_eq!(number_of(Asked { levels: 2, ..asked }, &flat_table(0), MAX_RECORDS, b""), 1);
    }
    for statistics in [0, 1] {
        let asked = Asked { statistics, ..STRICT };
        assert_eq!(number_of(asked, &flat_table(0), MAX_RECORDS, b""), 0);
        assert_eq!(number_of(Asked { choice: 0, ..asked }, &[], 0, b""), 1);
        assert_eq!(number_of(Asked { levels: 2, ..asked }, &[], 0, b""), 1);
        assert_eq!(number_of(asked, &[], MAX_RECORDS, b""), 2);
    }
}

#[test]
fn off_nothing_is_compared() {
    let wrong = trace(&["-102 -1 T 0 0 1 \"%d%d\" 7 5"]);
    assert_eq!((number(&wrong, STRICT), number(&wrong, LENIENT)), ((0, 0), (0, 0)));
    assert_eq!((number(&wrong, COMPARED), number(&wrong, Asked::comparing(2))), ((19, 1), (19, 1)));
    let asked = Asked { statistics: 1, ..LENIENT };
    assert_eq!(judged(TRACE_A, &flat_table(5), asked), judged(TRACE_A, &flat_table(5), LENIENT));
}

#[test]
fn after_the_lines_and_17_and_before_13() {
    let wrong = "-102 -1 T 0 0 1 \"%d%d\" 7 5";
    let unmatched = "-4 -52 T 1 0 3 2 8 1 0";
    assert_eq!(compared(&[unmatched, wrong]), (19, 2));
    assert_eq!(compared(&[wrong, unmatched]), (19, 1));
    assert_eq!(number(trace(&[wrong, "0 0 T 0 0 1 2 ^x"]), COMPARED), (5, 2));
    assert_eq!(compared(&[wrong, "0 0 -0.000001 0 0 0"]), (11, 2));
    let both = Asked { levels: 1, picl: 1, user: 1, trace: 1, ..COMPARED };
    assert_eq!(number(trace(&[wrong, "0 0 T 3 0 0"]), both), (17, 1));
    let mark = "-2 -904 T 0 0 3 2 1 1 1";
    assert_eq!(number(trace(&[wrong, mark]), both), (19, 1));
    assert_eq!(number(trace(&[mark, "-102 -1 T 0 0 1 \"%d%d\" -904 1"]), both), (0, 0));
}

/// What the benchmark compares is within the limits, agrees, and would not if one number were another.
#[test]
fn the_statistics_of_the_benchmark_agree() {
    let workloads = workload::all();
    let compared = workloads.iter().find(|workload| workload.asked == Asked::comparing(2)).unwrap();
    let text = String::from_utf8(compared.trace.clone()).unwrap();
    let (answer, _) = judged(&text, &flat_table(0), COMPARED);
    assert_eq!((answer.number, answer.listed, answer.passed), (0, MAX_RECORDS as u64, 0));
    let tells = |line: &&str| line.starts_with("-10") && line.contains(" 16 \"");
    assert_eq!(text.lines().filter(tells).count(), MAX_RECORDS / 10);
    let last = text.lines().rfind(|line| line.starts_with("-102")).unwrap();
    let wrong = text.replace(last, &format!("{last}0"));
    assert_eq!(refused(wrong, COMPARED).0, 19);
}

// Table 20 of the report.

#[test]
fn table_20_agrees() {
    assert_eq!(refused(TABLE_20, STRICT), (13, 13, 0));
    assert_eq!(refused(TABLE_20, COMPARED), (13, 13, 0));
    let sends = TABLE_20_SENT.strip_suffix(TABLE_20).unwrap();
    assert_eq!(sends.lines().count(), 2);
    for asked in [STRICT, LENIENT, COMPARED, Asked::comparing(2)] {
        let (answer, _) = judged(TABLE_20_SENT, &flat_table(0), asked);
        let expected =
            Answer { verdict: 1, listed: 37, matched: 2, unreceived: 1, rounds: 0, ..Answer::default() };
        assert_eq!(answer, expected);
    }
}

/// Its times of -52, -401 and -903 are one microsecond off.
const OFF_BY_ONE: [(&str, i64); 3] = [("-52", -1), ("-401", -1), ("-903", -1)];

/// Each compared number moved by one and by two: a time has one microsecond for each entry, and there are two
/// entries of -52; a count and a volume have none.
#[test]
fn table_20_with_one_number_moved() {
    let lines: Vec<&str> = TABLE_20_SENT.lines().collect();
    let mut moved = 0;
    for (place, line) in lines.iter().enumerate() {
        let fields: Vec<&str> = line.split(' ').collect();
        if !matches!(fields[..2], ["-101" | "-102" | "-103", "-1"]) {
            continue;
        }
        for (pair, told) in fields[7..].chunks(2).enumerate() {
            let &[event, told] = told else { panic!("half a pair") };
            for by in [-2, -1, 1, 2] {
                let digits: i64 = told.replace('.', "").parse().unwrap();
                let number = digits + by;
                let text = if told.contains('.') {
                    format!("{}.{:06}", number / 1_000_000, number % 1_000_000)
                } else {
                    number.to_string()
                };
                let mut changed: Vec<String> = fields.iter().map(ToString::to_string).collect();
                changed[8 + 2 * pair] = text;
                let changed = changed.join(" ");
                let mut all = lines.clone();
                all[place] = &changed;
                let expected = match fields[0] {
                    "-101" => {
                        let entries = if event == "-52" { 2 } else { 1 };
                        let off = OFF_BY_ONE.iter().find(|(off, _)| *off == event).map_or(0, |off| off.1);
                        (off + by).abs() <= entries
                    }
                    // It is the number that was not measured.
                    "-102" => number == -1,
                    _ => event == "-901",
                };
                let line = place as u64 + 1;
                let expected = if expected { (0, 0, 0) } else { (19, line, 0) };
                assert_eq!(refused(all.join("\n") + "\n", COMPARED), expected, "{changed}");
                moved += 1;
            }
        }
    }
    assert_eq!(moved, 4 * (7 + 9 + 3 + 2 + 2));
}
