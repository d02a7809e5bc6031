//! What the tests share: a judge with everything lent as it should be, the sample traces, and how judges that
//! are wrong are found out.

use reference::clock::{self, Floor, Settled};
use reference::generator::inquiry::Inquiry;
use reference::generator::pair::Pair;
use reference::generator::{Case, flat_table};
use reference::line::{self, Line};
use reference::list::{self, Ends, Filled};
use reference::list_trial::Trial;
use reference::merge::{Merged, merge};
use reference::refusal::NO_TIMES;
use reference::trial::{Call, difference};
use reference::{Answer, Asked, Choice, Inputs, MAX_BYTES, MAX_RECORDS, Question, judge, merge_trial};

#[allow(dead_code)]
pub const TRACE_A: &str = "\
-3 -21 0.000010 0 0 3 2 8 1 1
-4 -21 0.000012 0 0 0
-4 -52 0.000009 1 0 3 2 8 1 0
-3 -21 0.000011 1 0 3 2 8 2 0
-4 -51 0.000013 0 0 3 2 8 2 1
";

#[allow(dead_code)]
pub const TRACE_B: &str = "\
-4 -52 0.000001 0 0 3 2 8 1 1
-3 -21 0.000002 0 0 3 2 8 1 1
-4 -52 0.000003 1 0 3 2 8 1 0
-3 -21 0.000004 1 0 3 2 8 1 0
";

#[allow(dead_code)]
pub const STRICT: Asked = Asked::choice_alone(1);
pub const LENIENT: Asked = Asked::choice_alone(2);

/// The starts of sends and of receives.
#[allow(dead_code)]
pub const SENDS: [&str; 2] = ["-3 -21", "-3 -27"];
#[allow(dead_code)]
pub const RECEIVES: [&str; 5] = ["-4 -51", "-4 -52", "-4 -58", "-4 -60", "-4 -61"];

/// Lines as a trace; T is the time 0.000000.
#[allow(dead_code)]
pub fn trace(lines: &[&str]) -> String {
    lines.iter().map(|line| line.replace('T', "0.000000") + "\n").collect()
}

/// The answer, and the places of the times that were touched.
pub fn judged(trace: impl AsRef<[u8]>, latencies: &[u32], asked: Asked) -> (Answer, Vec<i64>) {
    let mut times = vec![i64::MIN; MAX_RECORDS];
    let trace = trace.as_ref();
    let answer = judge(Inputs { trace, latencies, asked, times: &mut times, wanted: false, room: &mut [] });
    let touched = times.iter().rposition(|&time| time != i64::MIN).map_or(0, |last| last + 1);
    times.truncate(touched);
    (answer, times)
}

/// Number, line and column under latencies 0.
#[allow(dead_code)]
pub fn refused(trace: impl AsRef<[u8]>, asked: Asked) -> (u64, u64, u64) {
    let (answer, times) = judged(trace, &flat_table(0), asked);
    assert_eq!(answer.number == 0, answer.verdict != 0);
    assert_eq!(times.len() as u64, answer.listed);
    (answer.number, answer.line, answer.column)
}

/// Number and line under latencies 0. The column has to be that of a caret, which is no part of the trace: it
/// stands before the field that decides, or at the end of a line where something is missing. Without one the
/// column has to be 0.
#[allow(dead_code)]
#[track_caller]
pub fn number(marked: impl AsRef<[u8]>, asked: Asked) -> (u64, u64) {
    let (trace, column) = unmarked(marked.as_ref());
    let (number, line, given) = refused(&trace, asked);
    assert_eq!(given, column, "the column of {number} line {line} in {}", String::from_utf8_lossy(&trace));
    (number, line)
}

/// A trace without its caret, and the column before which that stood, if there is one.
fn unmarked(marked: &[u8]) -> (Vec<u8>, u64) {
    match marked.split(|&byte| byte == b'^').collect::<Vec<_>>()[..] {
        [trace] => (trace.to_vec(), 0),
        [before, behind] => {
            let start = before.iter().rposition(|&byte| byte == b'\n').map_or(0, |end| end + 1);
            ([before, behind].concat(), (before.len() - start) as u64 + 1)
        }
        _ => panic!("two carets"),
    }
}

/// The written trace under one latency everywhere.
#[allow(dead_code)]
pub fn written(trace: impl AsRef<[u8]>, latency: u32) -> Vec<u8> {
    let mut times = vec![0; MAX_RECORDS];
    let mut room = vec![0; MAX_BYTES];
    let answer = judge(Inputs {
        trace: trace.as_ref(),
        latencies: &flat_table(latency),
        asked: LENIENT,
        times: &mut times,
        wanted: true,
        room: &mut room,
    });
    assert_eq!(answer.number, 0);
    room.truncate(answer.written as usize);
    room
}

/// The first lines of a trace.
#[allow(dead_code)]
pub fn first_lines(trace: &str, count: usize) -> String {
    trace.split_inclusive('\n').take(count).collect()
}

/// The right answer, without anything being written to what is lent.
#[allow(dead_code)]
pub fn tried(call: Inputs) -> Answer {
    let (mut times, mut room) = (call.times.to_vec(), call.room.to_vec());
    judge(Inputs { times: &mut times, room: &mut room, ..call })
}

/// The answer that was right, with what these floors come to instead.
#[allow(dead_code)]
pub fn settled(answer: Answer, floors: &[Floor], times: &mut [i64]) -> Answer {
    match clock::settle(floors) {
        Some(Settled { times: settled, rounds }) => {
            times[..settled.len()].copy_from_slice(&settled);
            Answer { rounds, ..answer }
        }
        None => Answer { number: NO_TIMES, ..Answer::default() },
    }
}

/// Whether one of the first so many cases finds a judge out.
#[allow(dead_code)]
pub fn found_in(cases: u64, wrong: impl Fn(Inputs) -> Answer) -> bool {
    found_among((0..cases).map(Case::from_seed), wrong)
}

#[allow(dead_code)]
pub fn found_among(mut cases: impl Iterator<Item = Case>, wrong: impl Fn(Inputs) -> Answer) -> bool {
    let (mut ours, mut theirs) = (Call::default(), Call::default());
    cases.any(|case| {
        let expected = ours.run(&case, judge);
        let given = theirs.run(&case, &wrong);
        difference((&expected, &ours), (&given, &theirs)).is_some()
    })
}

/// Whether one of the first pairs finds a merger out. What is wrong is wrong in few of them, now and then.
#[allow(dead_code)]
pub fn merger_is_found(wrong: impl Fn(&[u8], &[u8], u32, &mut [u8]) -> Merged) -> bool {
    merger_differs_in(20_000, wrong)
}

/// Whether none of them does, of fewer.
#[allow(dead_code)]
pub fn merger_passes(right: impl Fn(&[u8], &[u8], u32, &mut [u8]) -> Merged) -> bool {
    !merger_differs_in(5_000, right)
}

#[allow(dead_code)]
fn merger_differs_in(pairs: u64, merger: impl Fn(&[u8], &[u8], u32, &mut [u8]) -> Merged) -> bool {
    let (mut ours, mut theirs) = (merge_trial::Call::default(), merge_trial::Call::default());
    (0..pairs).map(Pair::from_seed).any(|pair| {
        let expected = ours.run(&pair, merge);
        let given = theirs.run(&pair, &merger);
        merge_trial::difference((&expected, &ours), (&given, &theirs)).is_some()
    })
}

/// Whether one of the first inquiries finds out who lists other messages.
#[allow(dead_code)]
pub fn messages_are_found(wrong: impl Fn(Question, &mut [Ends]) -> Filled) -> bool {
    lister_differs_in(5_000, wrong, list::chain)
}

/// Whether one of them finds out who lists other chains.
#[allow(dead_code)]
pub fn chains_are_found(wrong: impl Fn(Question, u64, &mut [u64]) -> Filled) -> bool {
    lister_differs_in(5_000, list::messages, wrong)
}

/// Whether none of them finds anything, of fewer.
#[allow(dead_code)]
pub fn lister_passes(
    messages: impl Fn(Question, &mut [Ends]) -> Filled,
    chain: impl Fn(Question, u64, &mut [u64]) -> Filled,
) -> bool {
    !lister_differs_in(2_000, messages, chain)
}

#[allow(dead_code)]
fn lister_differs_in(
    inquiries: u64,
    messages: impl Fn(Question, &mut [Ends]) -> Filled,
    chain: impl Fn(Question, u64, &mut [u64]) -> Filled,
) -> bool {
    let mut trial = Trial::default();
    (0..inquiries).map(Inquiry::from_seed).any(|inquiry| trial.run(&inquiry, &messages, &chain).1.is_some())
}

/// The lines of a trace, each with its LF.
#[allow(dead_code)]
pub fn lines_of(trace: &[u8]) -> impl DoubleEndedIterator<Item = &[u8]> {
    trace.split_inclusive(|&byte| byte == b'\n')
}

/// Whether lenient reading passes over a line.
#[allow(dead_code)]
pub fn is_passed(line: &[u8]) -> bool {
    line::read(line.strip_suffix(b"\n").unwrap_or(line), Choice::Lenient) == Ok(Line::Passed)
}
