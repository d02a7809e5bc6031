//! Request 9 of document 02, "Keep the gaps between local events": each corner with what it comes to, and
//! what is true of every trace. Strict and latencies 0 unless it is said.

mod common;

use common::{LENIENT, STRICT, TRACE_A, TRACE_B, judged, trace};
use reference::clock::kept;
use reference::generator::random::Random;
use reference::generator::workload;
use reference::generator::{Case, flat_table};
use reference::list::chain;
use reference::{
    Answer, Asked, Inputs, LATENCIES, MAX_BYTES, MAX_LATENCY, MAX_RECORDS, MAX_SHARE, MAX_TIME, PROCESSORS,
    Question, Solved, judge, solve,
};

/// The times and the rounds of an accepted trace at a share.
#[track_caller]
fn times_at(share: u32, trace: impl AsRef<[u8]>, latencies: &[u32]) -> (Vec<i64>, u64) {
    let (answer, times) = judged(trace, latencies, STRICT.keeping(share));
    assert_eq!(answer.number, 0);
    (times, answer.rounds)
}

/// What is given where there are no times.
fn no_times() -> (Answer, Vec<i64>) {
    (Answer { number: 15, ..Answer::default() }, vec![])
}

/// The chain of the record at a place.
#[track_caller]
fn chain_at(share: u32, trace: impl AsRef<[u8]>, latencies: &[u32], place: u64) -> Vec<u64> {
    let mut list = vec![0; MAX_RECORDS];
    let question = Question { trace: trace.as_ref(), latencies, asked: STRICT.keeping(share) };
    let answer = chain(question, place, &mut list);
    assert_eq!(answer.number, 0);
    list.truncate(answer.filled as usize);
    list
}

// The samples.

#[test]
fn trace_a() {
    let fives = flat_table(5);
    assert_eq!(times_at(0, TRACE_A, &fives), (vec![10, 12, 15, 15, 20], 3));
    assert_eq!(times_at(499, TRACE_A, &fives), (vec![10, 12, 15, 15, 20], 3));
    assert_eq!(times_at(500, TRACE_A, &fives), (vec![10, 12, 15, 16, 21], 3));
    assert_eq!(times_at(999, TRACE_A, &fives), (vec![10, 12, 15, 16, 21], 3));
    assert_eq!(times_at(1_000, TRACE_A, &fives), (vec![10, 12, 15, 17, 22], 3));
    let none = flat_table(0);
    assert_eq!(times_at(0, TRACE_A, &none), (vec![10, 12, 10, 11, 13], 1));
    assert_eq!(times_at(500, TRACE_A, &none), (vec![10, 12, 10, 11, 13], 1));
    assert_eq!(times_at(1_000, TRACE_A, &none), (vec![10, 12, 10, 12, 13], 2));
}

/// "A ring with zero latencies may now be 15: trace B at share 1,000 is, at 999 it has times."
#[test]
fn trace_b() {
    let none = flat_table(0);
    for share in [0, 500, 999] {
        assert_eq!(times_at(share, TRACE_B, &none), (vec![4; 4], 3));
    }
    assert_eq!(judged(TRACE_B, &none, STRICT.keeping(1_000)), no_times());
    // Records two microseconds apart are a ring from 500 on.
    let wider = TRACE_B.replace("0.000004", "0.000005");
    assert_eq!(times_at(499, &wider, &none).0, [5; 4]);
    assert_eq!(judged(wider, &none, STRICT.keeping(500)), no_times());
}

/// A receive at 0 of what was sent at 100, and behind it records of one processor at these times.
fn behind_a_receive(times: &[i64]) -> String {
    let mut text = trace(&["-3 -21 0.000100 0 0 3 2 8 1 1", "-4 -52 T 1 0 3 2 8 1 0"]);
    for time in times {
        text += &format!("0 0 0.{time:06} 1 0 0\n");
    }
    text
}

/// The times of those records, behind the receive's.
#[track_caller]
fn moved_at(share: u32, times: &[i64]) -> Vec<i64> {
    times_at(share, behind_a_receive(times), &flat_table(0)).0.split_off(2)
}

/// "gap 7 at 500 is 3; gaps 1 and 1 at 500 are 0 and 0"
#[test]
fn each_pair_of_neighbours_by_itself() {
    assert_eq!(moved_at(500, &[1, 8]), [100, 103]);
    assert_eq!(moved_at(500, &[1, 2]), [100, 100]);
    assert_eq!(moved_at(500, &[2]), [101]);
    assert_eq!(moved_at(1_000, &[1, 8]), [101, 108]);
    assert_eq!(moved_at(999, &[1, 8]), [100, 106]);
    assert_eq!(moved_at(143, &[1, 8]), [100, 101]);
    assert_eq!(moved_at(142, &[1, 8]), [100, 100]);
    assert_eq!(moved_at(1, &[999, 1_999]), [999, 1_999]);
    assert_eq!(moved_at(0, &[1, 8]), [100, 100]);
    // What was moved is caught up with by a gap that is longer than it.
    assert_eq!(moved_at(500, &[40, 500]), [120, 500]);
    assert_eq!(moved_at(1_000, &[40, 500]), [140, 600]);
}

#[test]
fn rounded_down() {
    for (share, gap, expected) in [
        (0, 2 * MAX_TIME, 0),
        (1, 999, 0),
        (1, 1_000, 1),
        (500, 1, 0),
        (500, 7, 3),
        (999, 1, 0),
        (999, 1_001, 999),
        (333, 3, 0),
        (334, 3, 1),
        (1_000, 2 * MAX_TIME, 2 * MAX_TIME),
        (999, 2 * MAX_TIME, 1_997_999_999_999_998),
    ] {
        assert_eq!(kept(share, gap), expected, "{share} of {gap}");
    }
}

/// Statistics records have gaps before them and behind them, and an unlisted line has none.
#[test]
fn neighbours_are_the_listed_records() {
    let between = |line: &str| {
        let text = behind_a_receive(&[0, 7]);
        text.replace("0 0 0.000007", &format!("{line}0 0 0.000007"))
    };
    let passed = between("-5 0 0.000003 1 0 0\n");
    let (_, times) = judged(passed, &flat_table(0), LENIENT.keeping(500));
    assert_eq!(times[2..], [100, 103]);
    for line in ["-102 -1 0.000003 1 0 0\n", "-101 -1 0.000003 1 0 1 \"%d%lf\" 7 -1.000000\n"] {
        // 1 of 3 and 2 of 4.
        assert_eq!(times_at(500, between(line), &flat_table(0)).0[2..], [100, 101, 103]);
        // 0 of 3 and 1 of 4.
        assert_eq!(times_at(250, between(line), &flat_table(0)).0[2..], [100, 100, 101]);
        assert_eq!(times_at(300, between(line), &flat_table(0)).0[2..], [100, 100, 101]);
    }
    // Together they would be 2.
    assert_eq!(times_at(300, between(""), &flat_table(0)).0[2..], [100, 102]);
    // Another processor's record is none.
    assert_eq!(times_at(500, between("0 0 0.000003 2 0 0\n"), &flat_table(0)).0[4], 103);
}

#[test]
fn a_receive_keeps_its_gap_too() {
    let text = "\
-3 -21 0.000100 0 0 3 2 8 1 1
-3 -21 0.000100 0 0 3 2 8 1 1
-4 -52 0.000000 1 0 3 2 8 1 0
-4 -52 0.000010 1 0 3 2 8 1 0
";
    assert_eq!(times_at(500, text, &flat_table(5)).0, [100, 100, 105, 110]);
    assert_eq!(chain_at(500, text, &flat_table(5), 3), [3, 2, 0]);
    // Its send, if that is later.
    let later = text.replacen("-3 -21 0.000100 0 0 3 2 8 1 1\n-4", "-3 -21 0.000150 0 0 3 2 8 1 1\n-4", 1);
    assert_eq!(times_at(500, &later, &flat_table(5)).0[2..], [105, 155]);
    assert_eq!(chain_at(500, &later, &flat_table(5), 3), [3, 1]);
}

// Chains.

#[test]
fn a_chain_over_gaps() {
    let text = behind_a_receive(&[1, 8]);
    let none = flat_table(0);
    // 100 and 3 kept of 7; 0 kept of 1.
    assert_eq!(chain_at(500, &text, &none, 3), [3, 2, 1, 0]);
    assert_eq!(chain_at(500, &text, &none, 2), [2, 1, 0]);
    assert_eq!(chain_at(1_000, &text, &none, 3), [3, 2, 1, 0]);
    assert_eq!(chain_at(500, TRACE_A, &flat_table(5), 4), [4, 3, 2, 0]);
    // What is later by itself than its gap would have it has not moved.
    let caught_up = behind_a_receive(&[1, 200]);
    assert_eq!(chain_at(500, &caught_up, &none, 3), [3]);
    assert_eq!(times_at(500, &caught_up, &none).0[2..], [100, 200]);
}

/// The fewest steps over latencies and gaps, and the processor's before the send's.
#[test]
fn ties_between_a_gap_and_a_latency() {
    let text = "\
-3 -21 0.000010 0 0 3 2 8 1 2
-3 -21 0.000010 1 0 3 2 8 1 3
-4 -52 0.000000 2 0 3 2 8 1 0
-4 -52 0.000000 3 0 3 2 8 1 1
-3 -21 0.000000 3 0 3 2 8 1 2
0 0 0.000000 2 0 0
-4 -52 0.000008 2 0 3 2 8 1 3
";
    let mut latencies = flat_table(0);
    latencies[PROCESSORS * 3 + 2] = 4;
    assert_eq!(times_at(500, text, &latencies).0, [10, 10, 10, 10, 10, 10, 14]);
    assert_eq!(chain_at(500, text, &latencies, 6), [6, 5, 2, 0]);
    // A microsecond less is kept, or more.
    assert_eq!(chain_at(499, text, &latencies, 6), [6, 4, 3, 1]);
    assert_eq!(chain_at(625, text, &latencies, 6), [6, 5, 2, 0]);
    assert_eq!(times_at(625, text, &latencies).0[6], 15);
}

/// Where a send is also the record before, the longer of latency and gap is waited, and there is one step.
#[test]
fn a_message_to_itself() {
    let text = "\
-3 -21 0.000010 1 0 3 2 8 1 0
-4 -52 0.000000 0 0 3 2 8 1 1
-3 -21 0.000000 0 0 3 2 8 1 0
-4 -52 0.000008 0 0 3 2 8 1 0
";
    for (share, latency, last) in [(500, 0, 14), (500, 4, 18), (500, 5, 20), (0, 0, 10), (1_000, 5, 23)] {
        let latencies = flat_table(latency);
        assert_eq!(times_at(share, text, &latencies).0[3], last);
        assert_eq!(chain_at(share, text, &latencies, 3), [3, 2, 1, 0]);
    }
}

// The ends of the range.

#[test]
fn the_longest_gap() {
    let text = "\
-3 -21 -999999999.999998 0 0 3 2 8 1 1
-4 -52 -999999999.999999 1 0 3 2 8 1 0
0 0 999999999.999998 1 0 0
";
    let none = flat_table(0);
    assert_eq!(times_at(1_000, text, &none).0, [-MAX_TIME + 1, -MAX_TIME + 1, MAX_TIME]);
    assert_eq!(chain_at(1_000, text, &none, 2), [2, 1, 0]);
    assert_eq!(times_at(999, text, &none).0[2], MAX_TIME - 1);
    // One microsecond more.
    let beyond = text.replace("999998 1", "999999 1");
    assert_eq!(judged(&beyond, &none, STRICT.keeping(1_000)), no_times());
    assert_eq!(judged(text, &flat_table(1), STRICT.keeping(1_000)), no_times());
    // All of the gap, and at the highest latency.
    let whole = "0 0 -999999999.999999 0 0 0\n0 0 999999999.999999 0 0 0\n";
    assert_eq!(times_at(1_000, whole, &none), (vec![-MAX_TIME, MAX_TIME], 0));
    assert_eq!(judged(text, &flat_table(MAX_LATENCY), STRICT.keeping(1_000)), no_times());
    // Two such gaps one behind the other.
    let twice = "\
-4 -52 -999999999.999999 0 0 3 2 8 1 1
-3 -21 999999999.999999 0 0 3 2 8 1 1
-4 -52 -999999999.999999 1 0 3 2 8 1 0
-3 -21 999999999.999999 1 0 3 2 8 1 0
";
    assert_eq!(judged(twice, &none, STRICT.keeping(1_000)), no_times());
    assert_eq!(judged(twice, &none, STRICT.keeping(1)), no_times());
    assert_eq!(times_at(0, twice, &none).0, [MAX_TIME; 4]);
}

// Refusal 2.

fn number_of(asked: Asked, latencies: &[u32], times: usize, trace: &[u8]) -> u64 {
    let mut times = vec![0; times];
    judge(Inputs { trace, latencies, asked, times: &mut times, wanted: true, room: &mut [] }).number
}

#[test]
fn a_share_above_1000_is_refusal_2() {
    let long = vec![b'x'; MAX_BYTES + 1];
    for share in [1_001, 1_002, 65_536, 1 << 31, u32::MAX] {
        let asked = STRICT.keeping(share);
        for trace in [&b""[..], b"x", &long] {
            assert_eq!(number_of(asked, &flat_table(0), MAX_RECORDS, trace), 2);
            assert_eq!(number_of(asked, &flat_table(MAX_LATENCY + 1), MAX_RECORDS, trace), 2);
            assert_eq!(number_of(asked, &[], 0, trace), 2);
            // All the 1s before it.
            for asked in [
                Asked { choice: 0, ..asked },
                Asked { choice: 3, ..asked },
                Asked { levels: 2, ..asked },
                Asked { statistics: 2, ..asked },
            ] {
                assert_eq!(number_of(asked, &flat_table(MAX_LATENCY + 1), 0, trace), 1);
            }
        }
    }
    for share in [0, 1, 999, 1_000] {
        let asked = STRICT.keeping(share);
        assert_eq!(number_of(asked, &flat_table(0), MAX_RECORDS, b""), 0);
        assert_eq!(number_of(asked, &flat_table(MAX_LATENCY + 1), MAX_RECORDS, b""), 3);
        assert_eq!(number_of(asked, &[0; LATENCIES - 1], MAX_RECORDS, b""), 2);
    }
}

/// What the benchmark runs on: nearly as many rounds as there can be, and gaps that matter.
#[test]
fn the_gaps_of_the_benchmark_are_kept() {
    let workloads = workload::all();
    let shares: Vec<u32> = workloads.iter().map(|workload| workload.asked.share).collect();
    let (last, others) = shares.split_last().unwrap();
    assert_eq!((*last, others), (500, &vec![0; others.len()][..]));
    let kept = &workloads[others.len()];
    let at = |share| judged(&kept.trace, &kept.latencies, kept.asked.keeping(share));
    let (answer, times) = at(500);
    assert_eq!((answer.verdict, answer.listed, answer.rounds), (2, MAX_RECORDS as u64, 2_045));
    let later = |other: &[i64]| times.iter().zip(other).filter(|(time, other)| time > other).count();
    assert!(later(&at(0).1) > 2_000 && later(&at(499).1) > 2_000);
}

// What is true of every trace.

/// A case's trace at a share, where it has times.
fn solved_at(case: &Case, share: u32) -> Option<Solved> {
    let question =
        Question { trace: &case.trace, latencies: &case.latencies, asked: case.asked.keeping(share) };
    solve(question, case.times).ok()
}

const SHARES: [u32; 8] = [0, 1, 333, 500, 501, 750, 999, 1_000];

/// Generated cases that are accepted at share 0, and have messages.
fn accepted_at_0(cases: u64) -> impl Iterator<Item = (Case, Solved)> {
    (0..cases).map(Case::from_seed).filter_map(|case| {
        let solved = solved_at(&case, 0)?;
        (solved.messages.matched > 0).then_some((case, solved))
    })
}

fn originals(solved: &Solved) -> Vec<i64> {
    solved.records.iter().map(|record| record.time).collect()
}

/// "A trace consistent at share 0 still is." And one that is not is not so at any share.
#[test]
fn a_consistent_trace_still_is() {
    let mut consistent = 0;
    for (case, solved) in accepted_at_0(4_000) {
        let is_consistent = solved.settled.times == originals(&solved);
        consistent += usize::from(is_consistent);
        for share in SHARES {
            let still = solved_at(&case, share).is_some_and(|at| at.settled.times == originals(&at));
            assert_eq!(still, is_consistent, "seed {} at {share}", case.seed);
        }
    }
    assert!(consistent > 100, "{consistent}");
}

#[test]
fn raising_the_share_makes_no_time_earlier() {
    let (mut later, mut refused) = (0, 0);
    for (case, solved) in accepted_at_0(4_000) {
        let mut lower = Some(solved.settled.times);
        for share in SHARES {
            let higher = solved_at(&case, share).map(|at| at.settled.times);
            match (&lower, &higher) {
                (Some(lower), Some(higher)) => {
                    assert!(lower.iter().zip(higher).all(|(lower, higher)| lower <= higher));
                    later += usize::from(lower != higher);
                }
                (lower, higher) => {
                    assert!(higher.is_none(), "seed {} at {share}", case.seed);
                    refused += usize::from(lower.is_some());
                }
            }
            lower = higher;
        }
    }
    assert!(later > 500 && refused > 50, "{later} {refused}");
}

/// No gap of an accepted trace is below its share; at 1,000 none shrinks.
#[test]
fn gaps_are_kept() {
    let mut shrunk = 0;
    for (case, _) in accepted_at_0(4_000) {
        for share in SHARES {
            let Some(Solved { records, settled, .. }) = solved_at(&case, share) else { continue };
            let mut last = [None; PROCESSORS];
            for (place, record) in records.iter().enumerate() {
                let Some(before) = last[record.processor].replace(place) else { continue };
                let was: i64 = record.time - records[before].time;
                let is = settled.times[place] - settled.times[before];
                assert!(1_000 * is > i64::from(share) * was - 1_000, "seed {} at {share}", case.seed);
                assert!(share < MAX_SHARE || is >= was);
                shrunk += usize::from(is < was);
            }
        }
    }
    assert!(shrunk > 1_000, "{shrunk}");
}

/// "The written trace read again" at the same share, or at any other, moves none.
#[test]
fn the_written_trace_read_again() {
    let mut again = 0;
    for (case, _) in accepted_at_0(3_000) {
        for share in [0, 500, 1_000] {
            let asked = Asked { statistics: 0, ..case.asked.keeping(share) };
            let mut room = vec![0; MAX_BYTES];
            let (trace, latencies) = (&case.trace[..], &case.latencies[..]);
            let mut times = vec![0; MAX_RECORDS];
            let lent = Inputs { trace, latencies, asked, times: &mut times, wanted: true, room: &mut room };
            let answer = judge(lent);
            if answer.number != 0 {
                continue;
            }
            room.truncate(answer.written as usize);
            times.truncate(answer.listed as usize);
            for share in SHARES {
                let (second, same) = judged(&room, latencies, asked.keeping(share));
                assert_eq!((second.number, second.rounds, second.verdict), (0, 0, 1), "seed {}", case.seed);
                assert_eq!(same, times);
            }
            again += usize::from(answer.verdict == 2);
        }
    }
    assert!(again > 300, "{again}");
}

// The least times, by trying all.

/// Up to four records of two processors at times from 0 to 4, with some messages, and latencies up to 2.
fn few_records(random: &mut Random) -> (String, Vec<u32>) {
    let mut shown = [0; 2];
    let mut text = String::new();
    for _ in 0..random.between(2, 4) {
        let here = random.place(2);
        shown[here] = random.between(shown[here], 4);
        let partner = random.below(2);
        let start = random.pick(&["-3 -21", "-4 -52", "-4 -52", "0 0"]);
        let end = if start == "0 0" { "0".to_string() } else { format!("3 2 8 1 {partner}") };
        text += &format!("{start} 0.{:06} {here} 0 {end}\n", shown[here]);
    }
    let latencies = (0..LATENCIES).map(|_| random.up_to(2)).collect();
    (text, latencies)
}

/// Times from 0 to this are tried.
const HIGHEST: i64 = 10;

/// Whether times are sound, as document 01 and the request have it.
fn are_sound(solved: &Solved, latencies: &[u32], share: u32, times: &[i64]) -> bool {
    let records = &solved.records;
    (0..records.len()).all(|place| {
        let here = records[place].processor;
        let before = (0..place).rev().find(|&other| records[other].processor == here);
        let keeps = |before: usize| {
            let gap = records[place].time - records[before].time;
            times[place] - times[before] >= gap * i64::from(share) / 1_000
        };
        let arrives = |send: usize| {
            times[place] >= times[send] + i64::from(latencies[PROCESSORS * records[send].processor + here])
        };
        times[place] >= records[place].time
            && before.is_none_or(keeps)
            && solved.messages.send_of[place].is_none_or(arrives)
    })
}

/// Every way to give so many records a time.
fn all_times(records: usize) -> impl Iterator<Item = Vec<i64>> {
    let ways = (HIGHEST + 1).pow(records as u32);
    (0..ways).map(move |way| {
        (0..records).map(|place| way / (HIGHEST + 1).pow(place as u32) % (HIGHEST + 1)).collect()
    })
}

#[test]
fn the_least_of_all_sound_times() {
    let mut random = Random::new(9);
    let (mut corrected, mut without) = (0, 0);
    for _ in 0..6_000 {
        let (text, latencies) = few_records(&mut random);
        let share = random.pick(&[0, 1, 250, 333, 500, 500, 750, 999, 1_000, 1_000]);
        let question = |asked| Question { trace: text.as_bytes(), latencies: &latencies, asked };
        // What is waited for does not depend on the share.
        let Ok(unkept) = solve(Question { latencies: &flat_table(0), ..question(STRICT) }, MAX_RECORDS)
        else {
            continue;
        };
        if unkept.messages.matched == 0 {
            continue;
        }
        let sound =
            || all_times(unkept.records.len()).filter(|times| are_sound(&unkept, &latencies, share, times));
        match solve(question(STRICT.keeping(share)), MAX_RECORDS) {
            Ok(solved) => {
                let least = solved.settled.times;
                corrected += usize::from(least != originals(&unkept));
                assert!(are_sound(&unkept, &latencies, share, &least), "{share} {text}");
                let not_below = |times: Vec<i64>| least.iter().zip(&times).all(|(least, time)| least <= time);
                assert!(sound().all(not_below), "{share} {text}");
            }
            Err(refusal) => {
                assert_eq!(refusal.number, 15);
                without += 1;
                assert_eq!(sound().next(), None, "{share} {text}");
            }
        }
    }
    assert!(corrected > 100 && without > 20, "{corrected} {without}");
}
