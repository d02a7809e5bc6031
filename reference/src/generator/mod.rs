//! Traces, tables and calls from a seed: the same seed gives the same case, until the generator changes.
//!
//! [`run`] makes sound runs and looks at them through wrong clocks, [`shape`] makes chains, rings and what
//! else has a known shape, [`nonblocking`] gives messages of both to calls that do not wait, [`damage`]
//! spoils them, [`stroke`] by one byte alone, [`fault`] spoils chosen fields of one line, [`near`] and
//! [`soup`] put lines together from good and bad parts, [`limit`] goes to the ends of every size and
//! number, [`level`] expects tracing levels and marks them, [`statistic`] tells what the records before say,
//! or nearly that, [`share`] chooses a share and makes gaps that it matters for, and [`call`] is the rest of a
//! call. [`pair`] makes two traces of them, to be merged, and [`inquiry`] asks for messages and chains, often of
//! a [`web`] of messages in which times have many causes. The benchmark's traces are in [`workload`], and stay
//! as they are.

mod call;
mod damage;
mod fault;
pub mod inquiry;
mod level;
mod limit;
mod near;
mod nonblocking;
pub mod pair;
pub mod random;
pub mod record;
mod run;
pub mod shape;
mod share;
mod soup;
mod statistic;
pub mod stroke;
mod web;
pub mod workload;

use crate::{Answer, Asked, Inputs, LATENCIES, MAX_LATENCY, MAX_RECORDS, judge};
use random::Random;

/// One call, with the lengths of what is lent and how far each lent slice stands off its buffer's
/// first place.
#[derive(Clone, Debug, PartialEq, Eq)]
pub struct Case {
    pub seed: u64,
    /// Which kind of trace it is.
    pub kind: &'static str,
    pub trace: Vec<u8>,
    pub latencies: Vec<u32>,
    pub asked: Asked,
    pub times: usize,
    pub wanted: bool,
    pub room: usize,
    pub offset: usize,
}

/// A trace and its table, before the rest of the call is chosen.
struct Draft {
    kind: &'static str,
    trace: Vec<u8>,
    latencies: Vec<u32>,
}

impl Case {
    pub fn from_seed(seed: u64) -> Case {
        let mut random = Random::new(seed);
        let Draft { kind, trace, latencies } = draft(&mut random);
        let choice = if random.chance(35) { 1 } else { 2 };
        let (asked, trace) = level::asked(&mut random, choice, trace);
        let (asked, trace) = statistic::asked(&mut random, asked, trace);
        let mut case = Case {
            seed,
            kind,
            trace,
            latencies,
            asked: asked.keeping(share::any(&mut random)),
            times: MAX_RECORDS,
            wanted: random.chance(50),
            room: 0,
            offset: random.below(16) as usize,
        };
        case.room = call::room(&case, &mut random);
        call::spoil(&mut case, &mut random);
        case
    }

    /// The reference's answer if there were room for everything.
    fn unhindered(&self) -> Answer {
        let mut room = vec![0; self.trace.len() + 16 * MAX_RECORDS];
        let mut times = vec![0; self.times];
        judge(Inputs {
            trace: &self.trace,
            latencies: &self.latencies,
            asked: self.asked,
            times: &mut times,
            wanted: true,
            room: &mut room,
        })
    }
}

fn draft(random: &mut Random) -> Draft {
    match random.below(1000) {
        0..140 => run::skewed(random),
        140..170 => share::handed_on(random),
        210..235 => run::at_the_end_of_time(random),
        235..255 => limit::times(random),
        255..280 => shape::any_chain(random),
        280..335 => shape::any_ring(random),
        335..420 => damage::in_messages(random),
        420..475 => damage::in_text(random),
        475..705 => stroke::trace(random),
        775..840 => near::lines(random),
        840..910 => soup::lines(random),
        170..210 | 705..775 | 910..980 => fault::lines(random),
        980..988 => limit::records(random),
        988..996 => limit::bytes(random),
        _ => soup::noise(random),
    }
}

/// A table with one latency everywhere.
pub fn flat_table(latency: u32) -> Vec<u32> {
    vec![latency; LATENCIES]
}

/// Any good table: often flat, often zero, sometimes at the limit.
fn table(random: &mut Random) -> Vec<u32> {
    let highest = match random.below(6) {
        0 | 1 => return flat_table(0),
        2 => return flat_table(random.below(20) as u32),
        3 => 10,
        4 => 5_000,
        _ => MAX_LATENCY,
    };
    let mut table: Vec<u32> = (0..LATENCIES).map(|_| random.up_to(highest)).collect();
    if random.chance(20) {
        table[random.below(LATENCIES as u64) as usize] = MAX_LATENCY;
    }
    table
}
