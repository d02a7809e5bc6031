//! The samples, one call for each refusal, and what is said of it.

use cantuvesh::Refusal::{self, *};
use cantuvesh::{
    Accepted, Asked, Choice, LATENCIES, LATENCY_LIMIT, Latencies, Levels, ROOM, Refused, SHARE_LIMIT,
    Statistics, TIMES, TRACE_LIMIT, Verdict, judge, raw,
};
use std::mem::{offset_of, size_of};
use std::num::NonZero;

const TRACE_A: &[u8] = include_bytes!("../../../samples/a.picl");
const TRACE_B: &[u8] = include_bytes!("../../../samples/b.picl");
const SILENT: &[u8] = include_bytes!("../../../samples/silent.picl");
const POSTED: &[u8] = include_bytes!("../../../samples/posted.picl");
const GAPS: &[u8] = include_bytes!("../../../samples/gaps.picl");

const STRICT: Asked =
    Asked { choice: Choice::Strict, levels: Levels::Off, statistics: Statistics::Off, share: 0 };
const LENIENT: Asked = Asked { choice: Choice::Lenient, ..STRICT };

/// Stands in every lent place beforehand; no time of a sample.
const UNTOUCHED: i64 = -7;

/// The answer, and the times that it gives; no other place is touched.
fn judged(
    trace: &[u8],
    latencies: &[u32],
    asked: Asked,
    room: Option<&mut [u8]>,
) -> (Result<Accepted, Refused>, Vec<i64>) {
    let mut times = vec![UNTOUCHED; TIMES];
    let answer = judge(trace, latencies, asked, &mut times, room);
    let listed = answer.map_or(0, |accepted| accepted.listed);
    assert!(times[listed..].iter().all(|&time| time == UNTOUCHED));
    times.truncate(listed);
    (answer, times)
}

#[test]
fn trace_a_is_corrected() {
    let (answer, times) = judged(TRACE_A, &Latencies::everywhere(5), STRICT, None);
    let verdict = Verdict::Corrected;
    assert_eq!(
        answer,
        Ok(Accepted { verdict, listed: 5, passed: 0, matched: 2, unreceived: 0, rounds: 3, written: 0 })
    );
    assert_eq!(times, [10, 12, 15, 15, 20]);
}

#[test]
fn its_written_trace_is_consistent() {
    let mut room = [b'?'; ROOM];
    let (answer, times) = judged(TRACE_A, &Latencies::everywhere(5), STRICT, Some(&mut room));
    let written = answer.unwrap().written;
    assert_eq!(written, TRACE_A.len());
    assert!(room[written..].iter().all(|&byte| byte == b'?'));
    let (again, same_times) = judged(&room[..written], &Latencies::everywhere(5), STRICT, None);
    assert_eq!(again.unwrap().verdict, Verdict::Consistent);
    assert_eq!(times, same_times);
}

#[test]
fn the_longest_written_trace_has_room() {
    let mut trace = b"-3 -21 999999999.999999 0 0 3 2 8 1 1\n-4 -52 0.000000 1 0 3 2 8 1 0\n".to_vec();
    trace.extend(b"0 0 0.000000 1 0 0\n".repeat(TIMES - 2));
    trace.extend(b"-5 0 0.000000 0 0 1 ");
    trace.resize(TRACE_LIMIT - 1, b'x');
    trace.push(b'\n');
    let mut room = vec![0; ROOM];
    let (answer, _) = judged(&trace, &Latencies::everywhere(0), LENIENT, Some(&mut room));
    assert_eq!(answer.unwrap().written, TRACE_LIMIT + 8 * (TIMES - 1));
}

#[test]
fn without_messages_there_is_nothing_to_judge() {
    for (trace, listed) in [(SILENT, 6), (b"", 0)] {
        let (answer, _) = judged(trace, &Latencies::everywhere(5), STRICT, None);
        let accepted = answer.unwrap();
        assert_eq!(
            (accepted.verdict, accepted.listed, accepted.matched),
            (Verdict::NothingToJudge, listed, 0)
        );
        assert_eq!(accepted.verdict.to_string(), "nothing to judge");
    }
}

#[test]
fn messages_may_be_posted_and_finish_later() {
    let (answer, times) = judged(POSTED, &Latencies::everywhere(5), STRICT, None);
    let verdict = Verdict::Corrected;
    assert_eq!(
        answer,
        Ok(Accepted { verdict, listed: 20, passed: 0, matched: 2, unreceived: 0, rounds: 3, written: 0 })
    );
    assert_eq!(times[16..], [95, 115, 115, 115]);
}

#[test]
fn a_receive_may_take_fewer_bytes_than_were_sent() {
    let short = b"-3 -21 0.000004 0 0 3 2 8 1 1\n-4 -52 0.000000 1 0 3 2 7 1 0\n";
    let (answer, times) = judged(short, &Latencies::everywhere(5), STRICT, None);
    assert_eq!(answer.map(|accepted| (accepted.verdict, accepted.matched)), Ok((Verdict::Corrected, 1)));
    assert_eq!(times[..], [4, 9]);
}

#[test]
fn lenient_passes_over_what_strict_refuses() {
    let trace = b"-5 0 0.000000 0 0 0\n";
    assert_eq!(refused(trace), (Unlisted, 1, 1));
    assert_eq!(judged(trace, &Latencies::everywhere(0), LENIENT, None).0.unwrap().passed, 1);
}

/// Reason, line and column, 0 where there is none.
fn reason(answer: Result<Accepted, Refused>) -> (Refusal, u64, u64) {
    let Refused { refusal, which, line, column } = answer.unwrap_err();
    assert_eq!(which, None);
    (refusal, line.map_or(0, NonZero::get), column.map_or(0, NonZero::get))
}

/// The same under strict and without latencies.
fn refused(trace: &[u8]) -> (Refusal, u64, u64) {
    reason(judged(trace, &Latencies::everywhere(0), STRICT, None).0)
}

#[test]
fn refusals_of_the_whole_call() {
    let none = Latencies::everywhere(0);
    assert_eq!(reason(judged(b"", &[0; LATENCIES - 1], STRICT, None).0), (Lengths, 0, 0));
    assert_eq!(reason(judge(b"", &none, STRICT, &mut [], None)), (Lengths, 0, 0));
    assert_eq!(
        reason(judged(b"", &Latencies::everywhere(LATENCY_LIMIT + 1), STRICT, None).0),
        (Latency, 0, 0)
    );
    assert_eq!(refused(&[b'\n'; TRACE_LIMIT + 1]), (TraceTooLong, 0, 0));
    let mut latencies = none.clone();
    latencies[(0, 1)] = 1;
    assert_eq!(reason(judged(TRACE_B, &latencies, STRICT, None).0), (NoTimes, 0, 0));
    let mut room = [b'?'; 3];
    assert_eq!(reason(judged(TRACE_A, &none, STRICT, Some(&mut room)).0), (RoomTooShort, 0, 0));
    assert_eq!(room, [b'?'; 3]);
}

#[test]
fn refusals_of_a_line() {
    assert_eq!(refused(b"0 0 0.000000 0 0 0\nx\n"), (Form, 2, 2));
    assert_eq!(refused(b"0 0 -0.000000 0 0 0\n"), (Timestamp, 1, 5));
    assert_eq!(refused(b"0 -56 0.000000 0 0 0\n"), (NotHandled, 1, 3));
    assert_eq!(refused(b"0 0 0.000000 64 0 0\n"), (Place, 1, 14));
    assert_eq!(refused(b"-3 -21 0.000000 0 0 0\n"), (MessageData, 1, 21));
    assert_eq!(refused(b"0 0 0.000001 0 0 0\n0 0 0.000000 0 0 0\n"), (Order, 2, 0));
    assert_eq!(refused(&b"0 0 0.000000 0 0 0\n".repeat(TIMES + 1)), (TooManyRecords, 2_049, 0));
    assert_eq!(refused(b"-4 -52 0.000000 1 0 3 2 8 1 0\n"), (NoSend, 1, 0));
    assert_eq!(
        refused(b"-4 -52 0.000000 1 0 3 2 8 1 0\n-3 -21 0.000000 0 0 3 2 7 1 1\n"),
        (LongReceive, 1, 0)
    );
}

#[test]
fn columns() {
    // The first field, one in the middle, and the last.
    assert_eq!(refused(b"x 0 0.000000 0 0 2 2 1 1\n"), (Form, 1, 1));
    assert_eq!(refused(b"0 0 0.000000 0 x 2 2 1 1\n"), (Form, 1, 16));
    assert_eq!(refused(b"0 0 0.000000 0 0 2 2 1 x\n"), (Form, 1, 24));
    // A datum that is missing, one too many, fewer than six fields, and no LF.
    assert_eq!(refused(b"0 0 0.000000 0 0 2 2 1\n"), (Form, 1, 23));
    assert_eq!(refused(b"0 0 0.000000 0 0 2 2 1 1 1\n"), (Form, 1, 26));
    assert_eq!(refused(b"0 0 x\n"), (Form, 1, 6));
    assert_eq!(refused(b"0 0 0.000000 0 0 0\n0 0 x 0 0 0"), (Form, 2, 12));
    // 7, 9 and 10 at another of their fields.
    assert_eq!(refused(b"0 -1 0.000000 0 0 0\n"), (Unlisted, 1, 3));
    assert_eq!(refused(b"0 0 0.000000 0 1 0\n"), (Place, 1, 16));
    assert_eq!(refused(b"-3 -21 0.000000 0 0 3 5 0.000000 0.000000 0.000000\n"), (MessageData, 1, 23));
    assert_eq!(refused(b"-3 -21 0.000000 0 0 3 2 -8 1 64\n"), (MessageData, 1, 25));
    assert_eq!(refused(b"-3 -21 0.000000 0 0 3 2 8 1 64\n"), (MessageData, 1, 29));
}

#[test]
fn levels_that_are_expected() {
    let good = b"-2 -904 0.000000 0 0 3 2 4 -1 999999999\n".as_slice();
    let other = b"-2 -904 0.000000 0 0 3 2 4 -1 0\n".as_slice();
    let short = b"-2 -904 0.000000 0 0 2 2 4 -1\n".as_slice();
    let event = b"-3 7 0.000001 0 0 0\n".as_slice();
    let elsewhere = b"-3 7 0.000001 1 0 0\n".as_slice();
    let expected = Levels::Expected { picl: 4, user: -1, trace: 999_999_999 };
    let judged = |lines: &[&[u8]], levels| {
        let asked = Asked { levels, ..STRICT };
        judged(&lines.concat(), &Latencies::everywhere(0), asked, None).0
    };
    for lines in [&[][..], &[good, event], &[other, good, short]] {
        assert_eq!(judged(lines, expected), judged(lines, Levels::Off));
        assert_eq!(judged(lines, expected).unwrap().listed, lines.len());
    }
    assert_eq!(reason(judged(&[good, other, event, elsewhere], expected)), (Refusal::Levels, 3, 0));
    assert_eq!(reason(judged(&[good, event, elsewhere], expected)), (Refusal::Levels, 3, 0));
    assert_eq!(reason(judged(&[short, event], expected)), (Refusal::Levels, 2, 0));
    // A number that no field can hold, and each of the three in its own place.
    for (picl, user, trace) in
        [(4, -1, i64::MAX), (-1, 4, 999_999_999), (4, 999_999_999, -1), (i64::MIN, -1, 0)]
    {
        let levels = Levels::Expected { picl, user, trace };
        assert_eq!(reason(judged(&[good, event], levels)), (Refusal::Levels, 2, 0));
    }
    assert_eq!(judged(&[good, other, event, elsewhere], Levels::Off).unwrap().listed, 4);
}

#[test]
fn statistics_that_are_compared() {
    let entry = b"-3 7 0.000001 0 0 0\n".as_slice();
    let right = b"-102 -1 0.000001 0 0 1 \"%d%d\" 7 1\n".as_slice();
    let wrong = b"-102 -1 0.000001 0 0 1 \"%d%d\" 7 2\n".as_slice();
    let judged = |lines: &[&[u8]], statistics| {
        let asked = Asked { statistics, ..STRICT };
        judged(&lines.concat(), &Latencies::everywhere(0), asked, None).0
    };
    for lines in [&[][..], &[entry, right], &[entry, right, entry, wrong]] {
        assert_eq!(judged(lines, Statistics::Compared), judged(lines, Statistics::Off));
        assert_eq!(judged(lines, Statistics::Compared).unwrap().listed, lines.len());
    }
    let differing = [entry, right, wrong, wrong];
    assert_eq!(reason(judged(&differing, Statistics::Compared)), (Refusal::Statistics, 3, 0));
    assert_eq!(judged(&differing, Statistics::Off).unwrap().listed, 4);
}

#[test]
fn gaps_that_are_kept() {
    let at = |share, trace: &[u8], latencies: &Latencies| {
        let (answer, times) = judged(trace, latencies, Asked { share, ..STRICT }, None);
        answer.map(|accepted| (times, accepted.rounds))
    };
    let fives = Latencies::everywhere(5);
    for (share, times) in [
        (0, [10, 12, 15, 15, 20]),
        (499, [10, 12, 15, 15, 20]),
        (500, [10, 12, 15, 16, 21]),
        (SHARE_LIMIT, [10, 12, 15, 17, 22]),
    ] {
        assert_eq!(at(share, TRACE_A, &fives), Ok((times.to_vec(), 3)));
    }
    // 0 of a gap of 1 and 3 of one of 7.
    for (share, times) in
        [(0, [100, 105, 105, 105]), (500, [100, 105, 105, 108]), (SHARE_LIMIT, [100, 105, 106, 113])]
    {
        assert_eq!(at(share, GAPS, &fives).unwrap().0, times);
    }
    // A ring of waits has times as long as nothing is kept in it.
    let none = Latencies::everywhere(0);
    assert_eq!(at(SHARE_LIMIT - 1, TRACE_B, &none), Ok((vec![4; 4], 3)));
    let refused = |share, trace, latencies: &Latencies| at(share, trace, latencies).unwrap_err().refusal;
    assert_eq!(refused(SHARE_LIMIT, TRACE_B, &none), NoTimes);
    for share in [SHARE_LIMIT + 1, u32::MAX] {
        assert_eq!(refused(share, b"", &none), Lengths);
        assert_eq!(refused(share, b"x", &Latencies::everywhere(LATENCY_LIMIT + 1)), Lengths);
    }
}

#[test]
fn a_written_trace_with_gaps_is_consistent() {
    let mut room = [0; ROOM];
    let asked = Asked { share: 500, ..STRICT };
    let fives = Latencies::everywhere(5);
    let (answer, times) = judged(GAPS, &fives, asked, Some(&mut room));
    let written = &room[..answer.unwrap().written];
    for share in [0, 500, SHARE_LIMIT] {
        let (again, same_times) = judged(written, &fives, Asked { share, ..STRICT }, None);
        assert_eq!((again.unwrap().verdict, &same_times), (Verdict::Consistent, &times));
    }
}

#[test]
fn a_refusal_says_its_number_its_place_and_its_sentence() {
    let of_a_line = judged(b"-5 0 0.000000 0 0 0\n", &Latencies::everywhere(0), STRICT, None).0.unwrap_err();
    let sentence = "the record type or the event type is not listed, and the choice is strict";
    assert_eq!(of_a_line.to_string(), format!("refused 7 line 1 column 1: {sentence}"));
    assert_eq!(of_a_line.refusal.to_string(), sentence);
    let of_no_field = judged(b"-4 -52 0.000000 1 0 3 2 8 1 0\n", &Latencies::everywhere(0), STRICT, None).0;
    assert_eq!(of_no_field.unwrap_err().to_string(), "refused 13 line 1: the receive has no matching send");
    let of_all: Box<dyn std::error::Error> = judged(b"", &[], STRICT, None).0.unwrap_err().into();
    assert_eq!(
        of_all.to_string(),
        "refused 2: the table or the lent times have the wrong length, or the share is above 1,000"
    );
}

#[test]
fn raw_gives_the_numbers_as_they_are() {
    let none = raw::Answer {
        number: 0,
        line: 0,
        column: 0,
        verdict: 0,
        listed: 0,
        passed: 0,
        matched: 0,
        unreceived: 0,
        rounds: 0,
        written: 0,
    };
    let (picl, user, trace) = (i64::MAX, -7, i64::MIN);
    let off = |choice| raw::Asked { choice, levels: 0, picl, user, trace, statistics: 0, share: 0 };
    let call = |asked, trace, latencies: &[u32], times: usize| {
        raw::LINKED.judge(trace, latencies, asked, &mut vec![0; times], true, &mut [0; ROOM])
    };
    for choice in [0, 3, u32::MAX] {
        let refused = raw::Answer { number: Refusal::Choice.number(), ..none };
        assert_eq!(call(off(choice), TRACE_A, &[], 0), refused);
    }
    for levels in [2, 257, u32::MAX] {
        assert_eq!(call(raw::Asked { levels, ..off(1) }, b"", &[], 0), raw::Answer { number: 1, ..none });
    }
    for statistics in [2, 257, u32::MAX] {
        assert_eq!(call(raw::Asked { statistics, ..off(1) }, b"", &[], 0), raw::Answer { number: 1, ..none });
    }
    assert_eq!(call(off(1), b"", &[], 0), raw::Answer { number: 2, ..none });
    for share in [1_001, 65_536, u32::MAX] {
        let asked = raw::Asked { share, ..off(1) };
        assert_eq!(call(asked, b"", &[u32::MAX; LATENCIES], TIMES), raw::Answer { number: 2, ..none });
        let unchosen = raw::Asked { choice: 0, ..asked };
        assert_eq!(call(unchosen, b"", &[0; LATENCIES], TIMES), raw::Answer { number: 1, ..none });
    }
    let of_a_field = raw::Answer { number: 5, line: 1, column: 2, ..none };
    assert_eq!(call(off(1), b"x\n", &[0; LATENCIES], TIMES), of_a_field);
    let on = raw::Asked { levels: 1, ..off(1) };
    assert_eq!(call(on, TRACE_A, &[5; LATENCIES], TIMES), raw::Answer { number: 17, line: 5, ..none });
    let accepted = raw::Answer { verdict: 2, listed: 5, matched: 2, rounds: 3, written: 142, ..none };
    assert_eq!(call(off(1), TRACE_A, &[5; LATENCIES], TIMES), accepted);
}

/// As a C compiler lays out `struct cantuvesh_asked`.
#[test]
fn what_is_asked_has_the_places_of_c() {
    use raw::Asked;
    let places = [
        offset_of!(Asked, choice),
        offset_of!(Asked, levels),
        offset_of!(Asked, picl),
        offset_of!(Asked, user),
        offset_of!(Asked, trace),
        offset_of!(Asked, statistics),
        offset_of!(Asked, share),
    ];
    assert_eq!((places, size_of::<Asked>()), ([0, 4, 8, 16, 24, 32, 36], 40));
}

/// As a C compiler lays out `struct cantuvesh_answer`.
#[test]
fn an_answer_has_the_places_of_c() {
    use raw::Answer;
    let places = [
        offset_of!(Answer, number),
        offset_of!(Answer, line),
        offset_of!(Answer, column),
        offset_of!(Answer, verdict),
        offset_of!(Answer, listed),
        offset_of!(Answer, passed),
        offset_of!(Answer, matched),
        offset_of!(Answer, unreceived),
        offset_of!(Answer, rounds),
        offset_of!(Answer, written),
    ];
    assert_eq!((places, size_of::<Answer>()), ([0, 8, 16, 24, 32, 40, 48, 56, 64, 72], 80));
}

#[test]
fn latencies_stand_at_their_pair() {
    let mut latencies = Latencies::everywhere(3);
    latencies[(2, 5)] = 9;
    assert_eq!((latencies[(2, 5)], latencies[(5, 2)]), (9, 3));
    let places: Vec<usize> = (0..latencies.len()).filter(|&place| latencies.get(place) == Some(&9)).collect();
    assert_eq!((latencies.len(), places), (4_096, vec![64 * 2 + 5]));
}

#[test]
#[should_panic(expected = "0 to 63")]
fn no_pair_of_processors() {
    Latencies::everywhere(0)[(0, 64)] = 1;
}
