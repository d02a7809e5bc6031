//! One judge held against another on a case: the answer, and every place of what was lent, the
//! untouched ones and those around them among them.

use crate::deciding::{self, deciding};
use crate::generator::Case;
use crate::generator::stroke::{self, LONGEST_START};
use crate::lent::{Lent, pattern};
use crate::line::{Role, Subject};
use crate::{Answer, Asked, Choice, Inputs, Question, form, message, refusal, solve, trace};
use std::collections::BTreeMap;
use std::fmt;

/// Everything that is lent in one call.
#[derive(Default)]
pub struct Call {
    trace: Lent<u8>,
    latencies: Lent<u32>,
    times: Lent<i64>,
    room: Lent<u8>,
}

impl Call {
    /// Runs a judge on a case, with slices that stand where the case says.
    pub fn run(&mut self, case: &Case, judge: impl FnOnce(Inputs) -> Answer) -> Answer {
        let mix = |place| pattern(case.seed, place);
        self.trace.prepare_with(case.offset, &case.trace, |place| mix(place) as u8);
        self.latencies.prepare_with(case.offset / 3, &case.latencies, |place| mix(place) as u32);
        self.times.prepare(case.offset / 5, case.times, |place| mix(place) as i64);
        self.room.prepare(case.offset / 2, case.room, |place| (mix(place) >> 56) as u8);
        judge(Inputs {
            trace: self.trace.slice(),
            latencies: self.latencies.slice(),
            asked: case.asked,
            times: self.times.slice(),
            wanted: case.wanted,
            room: self.room.slice(),
        })
    }
}

/// The first way in which two finished calls differ.
pub fn difference(one: (&Answer, &Call), other: (&Answer, &Call)) -> Option<String> {
    if one.0 != other.0 {
        return Some(format!("answers differ:\n  {:?}\n  {:?}", one.0, other.0));
    }
    let (one, other) = (one.1, other.1);
    one.times
        .difference("times", &other.times)
        .or_else(|| one.room.difference("room", &other.room))
        .or_else(|| one.trace.difference("trace", &other.trace))
        .or_else(|| one.latencies.difference("latencies", &other.latencies))
}

/// The messages of an accepted trace, each by the events of its send and of its receive.
pub fn events_of_messages(trace: &[u8]) -> Vec<(i64, i64)> {
    // The event stands before the timestamp, with a space on either side.
    let event = |record: &trace::Record| {
        let start = &trace[..record.stamp.start - 1];
        form::whole(start.rsplit(|&byte| byte == b' ').next()?)
    };
    messages_of(trace).iter().filter_map(|[send, receive]| Some((event(send)?, event(receive)?))).collect()
}

/// Whether some receive took fewer bytes than were sent.
pub fn has_short_receive(trace: &[u8]) -> bool {
    messages_of(trace).iter().any(|ends| match [ends[0].role, ends[1].role] {
        [Role::Send(sent), Role::Receive(received)] => received.length < sent.length,
        _ => false,
    })
}

/// Each message of a trace, its send and its receive; none of one that is refused.
fn messages_of(trace: &[u8]) -> Vec<[trace::Record; 2]> {
    // Strict reading would pass nothing over, or would have refused it.
    let Ok(trace::Listing { records, .. }) = trace::read(trace, Choice::Lenient) else { return Vec::new() };
    let Ok(message::Messages { send_of, .. }) = message::pair(&records) else { return Vec::new() };
    let messages =
        send_of.iter().zip(&records).filter_map(|(&send, receive)| Some([&records[send?], receive]));
    messages.map(|ends| ends.map(Clone::clone)).collect()
}

/// Whether most lines of a trace begin so far before its end that a quick reader can go over their first six
/// fields without looking for it.
fn is_mostly_far_from_end(trace: &[u8]) -> bool {
    let Some(last_start) = trace.len().checked_sub(LONGEST_START) else { return false };
    let ends = |part: &[u8]| part.iter().filter(|&&byte| byte == b'\n').count();
    // One line begins the trace, and one stands behind each end.
    2 * (1 + ends(&trace[..last_start])) > ends(trace)
}

/// The numbers that judging gives are below this. One of them it never gives.
const NUMBERS: usize = refusal::STATISTICS as usize + 1;
const OF_MERGING: usize = refusal::SHARED as usize;

/// Whether a trace has statistics that are compared where that is asked for.
pub fn has_statistics(trace: &[u8]) -> bool {
    let tells =
        |record: &trace::Record| matches!(&record.subject, Subject::Told(_, pairs) if !pairs.is_empty());
    trace::read(trace, Choice::Lenient).is_ok_and(|listing| listing.records.iter().any(tells))
}

/// The times that a case's trace comes to if this is asked.
fn times_of(case: &Case, asked: Asked) -> Option<Vec<i64>> {
    let question = Question { trace: &case.trace, latencies: &case.latencies, asked };
    Some(solve(question, case.times).ok()?.settled.times)
}

/// How often each number and each verdict came up, and how often each kind of trace.
#[derive(Clone, Debug, Default, PartialEq, Eq)]
pub struct Tally {
    pub numbers: [u64; NUMBERS],
    pub verdicts: [u64; 4],
    /// Accepted traces with listed records of which levels were expected.
    pub levels_met: u64,
    /// Accepted traces with statistics that were compared.
    pub statistics_met: u64,
    /// Accepted traces with a time that is later by the gaps that are kept.
    pub gaps_kept: u64,
    /// Traces that would have times if no gap were kept.
    pub gaps_refused: u64,
    /// Accepted traces with a message that was begun, or that finished later.
    pub nonblocking: u64,
    /// Accepted traces with a receive that took fewer bytes than were sent.
    pub short_receives: u64,
    /// Accepted traces most of whose lines, which are all good, a quick reader can take.
    pub quick: u64,
    /// Traces with one line that is one byte off a good one, in calls that come to reading lines.
    pub one_byte_off: u64,
    /// What the columns meant, each as [`deciding`] calls it.
    pub columns: BTreeMap<String, u64>,
    pub kinds: BTreeMap<&'static str, u64>,
}

impl Tally {
    pub fn cases(&self) -> u64 {
        self.numbers.iter().sum()
    }

    pub fn count(&mut self, case: &Case, answer: &Answer) {
        self.numbers[answer.number as usize] += 1;
        self.verdicts[answer.verdict as usize] += 1;
        self.levels_met += u64::from(answer.listed > 0 && case.asked.levels == 1);
        let compared = answer.number == 0 && case.asked.statistics == 1;
        self.statistics_met += u64::from(compared && has_statistics(&case.trace));
        self.count_gaps(case, answer);
        let blocking = |events: (i64, i64)| matches!(events, (-21, -51 | -52));
        let all_block = |case: &Case| events_of_messages(&case.trace).into_iter().all(blocking);
        self.nonblocking += u64::from(answer.matched > 0 && !all_block(case));
        self.short_receives += u64::from(answer.matched > 0 && has_short_receive(&case.trace));
        self.quick += u64::from(answer.number == 0 && is_mostly_far_from_end(&case.trace));
        self.one_byte_off += u64::from(case.kind == stroke::KIND && !matches!(answer.number, 1..=4));
        if let Some(meant) = deciding(&case.trace, answer) {
            *self.columns.entry(meant).or_default() += 1;
        }
        *self.kinds.entry(case.kind).or_default() += 1;
    }

    fn count_gaps(&mut self, case: &Case, answer: &Answer) {
        if case.asked.share > 0 && matches!(answer.number, 0 | refusal::NO_TIMES) {
            let times = times_of(case, case.asked);
            let differs = times != times_of(case, case.asked.keeping(0));
            self.gaps_kept += u64::from(differs && times.is_some());
            self.gaps_refused += u64::from(differs && times.is_none());
        }
    }

    /// The numbers that judging gives, and how often each came up.
    fn numbers(&self) -> impl Iterator<Item = (usize, u64)> {
        self.numbers.iter().copied().enumerate().filter(|&(number, _)| number != OF_MERGING)
    }

    /// All that a column can mean, and how often it did.
    fn columns(&self) -> impl Iterator<Item = (String, u64)> {
        deciding::all().into_iter().map(|meant| {
            let times = self.columns.get(&meant).copied().unwrap_or_default();
            (meant, times)
        })
    }

    /// What came up less often than a run of 200,000 cases must show.
    pub fn too_seldom(&self) -> Vec<String> {
        let numbers = self.numbers().map(|(number, times)| {
            let floor = if matches!(number, 4 | 12) { 100 } else { 500 };
            (format!("number {number}"), times, floor)
        });
        let verdicts = (1..=3).map(|verdict| (format!("verdict {verdict}"), self.verdicts[verdict], 500));
        let kinds_of_traces = [
            ("levels met", self.levels_met),
            ("statistics met", self.statistics_met),
            ("gaps kept", self.gaps_kept),
            ("gaps refused", self.gaps_refused),
            ("nonblocking messages", self.nonblocking),
            ("short receives", self.short_receives),
        ]
        .map(|(name, times)| (name.to_string(), times, 500));
        // What a quick reader takes and what it must not take, each in a tenth of the cases.
        let good_or_nearly = [("quick", self.quick), ("one byte off", self.one_byte_off)]
            .map(|(name, times)| (name.to_string(), times, 20_000));
        let columns = self.columns().map(|(meant, times)| (format!("column of {meant}"), times, 50));
        below_floor(numbers.chain(verdicts).chain(kinds_of_traces).chain(good_or_nearly).chain(columns))
    }
}

/// Of what came up so many times, what did so less often than it should.
pub fn below_floor(counted: impl Iterator<Item = (String, u64, u64)>) -> Vec<String> {
    counted
        .filter(|&(_, times, floor)| times < floor)
        .map(|(name, times, floor)| format!("{name} came up {times} times, {floor} are asked"))
        .collect()
}

impl fmt::Display for Tally {
    fn fmt(&self, out: &mut fmt::Formatter) -> fmt::Result {
        for (kind, times) in &self.kinds {
            writeln!(out, "{kind:<15}{times:>8}")?;
        }
        for (number, times) in self.numbers() {
            writeln!(out, "number {number:<8}{times:>8}")?;
        }
        for verdict in 1..=3 {
            writeln!(out, "verdict {verdict:<7}{:>8}", self.verdicts[verdict])?;
        }
        writeln!(out, "levels met     {:>8}", self.levels_met)?;
        writeln!(out, "statistics met {:>8}", self.statistics_met)?;
        writeln!(out, "gaps kept      {:>8}", self.gaps_kept)?;
        writeln!(out, "gaps refused   {:>8}", self.gaps_refused)?;
        writeln!(out, "nonblocking    {:>8}", self.nonblocking)?;
        writeln!(out, "short receives {:>8}", self.short_receives)?;
        writeln!(out, "quick          {:>8}", self.quick)?;
        writeln!(out, "one byte off   {:>8}", self.one_byte_off)?;
        for (meant, times) in self.columns() {
            writeln!(out, "column of {meant:<26}{times:>8}")?;
        }
        Ok(())
    }
}
