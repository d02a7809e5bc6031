//! Cantuvesh for Rust: reads an event trace of PICL, says whether its clocks agree with the messages in
//! it, and where they do not gives the least later times at which all agree. The library behind it is
//! proved; `./library` makes it.
//!
//! ```
//! use cantuvesh::{Asked, Choice, Latencies, Levels, Statistics, TIMES, Verdict, judge};
//!
//! let trace = b"-3 -21 0.000010 0 0 3 2 8 1 1
//! -4 -21 0.000012 0 0 0
//! -4 -52 0.000009 1 0 3 2 8 1 0
//! -3 -21 0.000011 1 0 3 2 8 2 0
//! -4 -51 0.000013 0 0 3 2 8 2 1
//! ";
//! let latencies = Latencies::everywhere(5);
//! let mut times = [0; TIMES];
//! let asked = Asked { choice: Choice::Strict, levels: Levels::Off, statistics: Statistics::Off, share: 0 };
//! let accepted = judge(trace, &latencies, asked, &mut times, None)?;
//! assert_eq!(accepted.verdict, Verdict::Corrected);
//! assert_eq!(times[..accepted.listed], [10, 12, 15, 15, 20]);
//! # Ok::<(), cantuvesh::Refused>(())
//! ```
//!
//! Messages may be blocking, or posted and finished later: a send is the entry of -21 or -27, a receive
//! the exit of -51, -52, -58, -60 or -61.
//!
//! Nodes that write a file each have them [merged](merge) before. Which records are a [message](messages),
//! and [why a time moved](chain), is told of an accepted trace by its records' places.
//!
//! A call keeps nothing, allocates nothing, and may be made from several threads at once. To judge takes
//! some 180,000 bytes of the calling thread's stack, to merge some 90,000, to list the messages some 210,000,
//! and a chain up to some 370,000.

#![deny(missing_docs)]
#![deny(unsafe_op_in_unsafe_fn)]
#![deny(unsafe_code)]

mod latencies;
#[allow(unsafe_code)]
pub mod raw;
mod refusal;

pub use latencies::Latencies;
pub use raw::Message;
pub use refusal::{Refusal, Refused, Which};

use std::fmt;

/// The most bytes that a trace may have.
pub const TRACE_LIMIT: usize = 65_536;
/// Processors are 0 to 63.
pub const PROCESSORS: usize = 64;
/// The exact number of latencies: one for each sender and receiver.
pub const LATENCIES: usize = PROCESSORS * PROCESSORS;
/// The highest latency, in microseconds.
pub const LATENCY_LIMIT: u32 = 1_000_000;
/// The highest share of a gap, in thousandths: all of it.
pub const SHARE_LIMIT: u32 = 1_000;
/// The exact number of lent times; the most listed records.
pub const TIMES: usize = 2_048;
/// So many bytes of room are enough for every written trace.
pub const ROOM: usize = TRACE_LIMIT + 8 * TIMES;

/// What to do with a line whose record type or event type is not listed. There is no default.
#[derive(Clone, Copy, Debug, PartialEq, Eq, Hash)]
pub enum Choice {
    /// It is refused.
    Strict = 1,
    /// It is passed over, counted and left as it is.
    Lenient = 2,
}

/// The tracing levels that the trace has to tell. There is no default.
///
/// A processor tells them by marks: records of type -2 and event -904 with three data under descriptor 2. No
/// other record counts.
///
/// ```
/// use cantuvesh::{Asked, Choice, Latencies, Levels, Refusal, Statistics, TIMES, judge};
///
/// let trace = b"-2 -904 0.000000 0 0 3 2 4 4 0\n-3 7 0.000001 0 0 0\n";
/// let judged = |levels| {
///     let asked = Asked { choice: Choice::Strict, levels, statistics: Statistics::Off, share: 0 };
///     judge(trace, &Latencies::everywhere(0), asked, &mut [0; TIMES], None)
/// };
/// assert!(judged(Levels::Off).is_ok());
/// assert!(judged(Levels::Expected { picl: 4, user: 4, trace: 0 }).is_ok());
/// let refused = judged(Levels::Expected { picl: 4, user: 4, trace: 1 }).unwrap_err();
/// assert_eq!((refused.refusal, refused.line.unwrap().get()), (Refusal::Levels, 2));
/// ```
#[derive(Clone, Copy, Debug, PartialEq, Eq, Hash)]
pub enum Levels {
    /// None are expected.
    Off,
    /// Each processor with listed records has a mark, and its last one tells these three, in the order of
    /// its data. They may be any numbers; one that no field can hold is never met.
    Expected {
        /// The level of PICL events.
        picl: i64,
        /// The level of user events.
        user: i64,
        /// The level of trace events.
        trace: i64,
    },
}

/// Whether what statistics records tell is compared. There is no default.
///
/// They are records of type -101 (times), -102 (counts) and -103 (volumes), and listed whatever their event
/// is. Those with event -1 are held against the earlier records of their processor.
///
/// ```
/// use cantuvesh::{Asked, Choice, Latencies, Levels, Refusal, Statistics, TIMES, judge};
///
/// let trace = b"-3 7 0.000001 0 0 0\n-102 -1 0.000001 0 0 1 \"%d%d\" 7 2\n";
/// let judged = |statistics| {
///     let asked = Asked { choice: Choice::Strict, levels: Levels::Off, statistics, share: 0 };
///     judge(trace, &Latencies::everywhere(0), asked, &mut [0; TIMES], None)
/// };
/// assert!(judged(Statistics::Off).is_ok());
/// let refused = judged(Statistics::Compared).unwrap_err();
/// assert_eq!((refused.refusal, refused.line.unwrap().get()), (Refusal::Statistics, 2));
/// ```
#[derive(Clone, Copy, Debug, PartialEq, Eq, Hash)]
pub enum Statistics {
    /// It is not: they are read, and any good numbers will do.
    Off = 0,
    /// A time agrees to within one microsecond for each entry, a count and a volume exactly.
    Compared = 1,
}

/// What the caller names beside the trace and the table. Nothing in it has a default: what is asked for
/// later becomes a field, and a caller is compiled again only when it names that too.
#[derive(Clone, Copy, Debug, PartialEq, Eq, Hash)]
pub struct Asked {
    /// What to do with an unlisted line.
    pub choice: Choice,
    /// The tracing levels that are expected, if any.
    pub levels: Levels,
    /// Whether statistics records are compared.
    pub statistics: Statistics,
    /// How much is kept of the gap between each listed record and the one before it on its processor, in
    /// thousandths: 0 to [`SHARE_LIMIT`], and a higher one is refused by the call.
    ///
    /// Where a receive moves, what follows it on its processor is squeezed: at share 0 records that were
    /// apart may come to one time. At 500 each lies behind the one before it by half of the microseconds that
    /// were between them at least, rounded down for each gap by itself; at 1,000 no gap shrinks. A trace whose
    /// times need not move at share 0 has these times at every share; others come to no earlier ones at a
    /// higher share, or to none.
    ///
    /// ```
    /// use cantuvesh::{Asked, Choice, Latencies, Levels, Statistics, TIMES, judge};
    ///
    /// // What processor 1 does 1 and then 7 microseconds later goes with what it received.
    /// let trace = b"-3 -21 0.000100 0 0 3 2 8 1 1
    /// -4 -52 0.000010 1 0 3 2 8 1 0
    /// -3 7 0.000011 1 0 0
    /// -4 7 0.000018 1 0 0
    /// ";
    /// let times_at = |share| {
    ///     let statistics = Statistics::Off;
    ///     let asked = Asked { choice: Choice::Strict, levels: Levels::Off, statistics, share };
    ///     let mut times = [0; TIMES];
    ///     let accepted = judge(trace, &Latencies::everywhere(5), asked, &mut times, None)?;
    ///     Ok::<_, cantuvesh::Refused>(times[..accepted.listed].to_vec())
    /// };
    /// assert_eq!(times_at(0)?, [100, 105, 105, 105]);
    /// assert_eq!(times_at(500)?, [100, 105, 105, 108]);
    /// assert_eq!(times_at(1_000)?, [100, 105, 106, 113]);
    /// # Ok::<(), cantuvesh::Refused>(())
    /// ```
    pub share: u32,
}

/// As the C call takes it: the numbers of levels that are off are not looked at.
impl From<Asked> for raw::Asked {
    fn from(Asked { choice, levels, statistics, share }: Asked) -> raw::Asked {
        let (levels, [picl, user, trace]) = match levels {
            Levels::Off => (0, [0; 3]),
            Levels::Expected { picl, user, trace } => (1, [picl, user, trace]),
        };
        raw::Asked { choice: choice as u32, levels, picl, user, trace, statistics: statistics as u32, share }
    }
}

/// What an accepted trace is.
#[derive(Clone, Copy, Debug, PartialEq, Eq, Hash)]
pub enum Verdict {
    /// Messages matched, and no time had to move.
    Consistent,
    /// Messages matched, and some time moved.
    Corrected,
    /// No message matched.
    NothingToJudge,
}

impl fmt::Display for Verdict {
    fn fmt(&self, out: &mut fmt::Formatter) -> fmt::Result {
        out.write_str(match self {
            Verdict::Consistent => "consistent",
            Verdict::Corrected => "corrected",
            Verdict::NothingToJudge => "nothing to judge",
        })
    }
}

/// The answer on a trace that is accepted.
#[derive(Clone, Copy, Debug, PartialEq, Eq, Hash)]
pub struct Accepted {
    /// What it is.
    pub verdict: Verdict,
    /// Listed records: so many of the lent times are written.
    pub listed: usize,
    /// Lines passed over.
    pub passed: usize,
    /// Messages, each a receive with its send.
    pub matched: usize,
    /// Sends that no receive belongs to.
    pub unreceived: usize,
    /// The first round of corrections that the next one repeats.
    pub rounds: usize,
    /// Bytes of the written trace, at the start of the room; 0 if it was not wanted.
    pub written: usize,
}

/// Judges one trace.
///
/// - `trace` is any bytes: what is no good trace is refused.
/// - `latencies` has at 64 · sender + receiver the least time that a message takes, in microseconds: a
///   [`Latencies`], or any [`LATENCIES`] numbers.
/// - `times` are [`TIMES`] places. An accepted trace's corrected times, in microseconds and in file
///   order of the listed records, are `times[..accepted.listed]`.
/// - `room`, if it is lent, gets the trace with these times: it is `room[..accepted.written]`. [`ROOM`]
///   bytes are always enough.
///
/// All later places are left as they were, and every place if the trace is refused.
///
/// # Errors
///
/// The trace, or the whole call, is refused for one of the reasons that [`Refusal`] has. [`Refused`] says at
/// which line and column.
pub fn judge(
    trace: &[u8],
    latencies: &[u32],
    asked: Asked,
    times: &mut [i64],
    room: Option<&mut [u8]>,
) -> Result<Accepted, Refused> {
    let wanted = room.is_some();
    let answer = raw::LINKED.judge(trace, latencies, asked.into(), times, wanted, room.unwrap_or_default());
    if answer.number != 0 {
        return Err(Refused::judging(answer));
    }
    Ok(Accepted {
        verdict: match answer.verdict {
            1 => Verdict::Consistent,
            2 => Verdict::Corrected,
            3 => Verdict::NothingToJudge,
            other => panic!("the library gave verdict {other}, which is none"),
        },
        listed: answer.listed as usize,
        passed: answer.passed as usize,
        matched: answer.matched as usize,
        unreceived: answer.unreceived as usize,
        rounds: answer.rounds as usize,
        written: answer.written as usize,
    })
}

/// Merges two traces, as of nodes that write one file each, and gives the length of the merged one: it is
/// `room[..length]`, and as long as both together.
///
/// At each step, of the two lines at the heads, the one with the smaller timestamp goes next, the first
/// trace's where equal; lines that are passed over go by their timestamps, too. So every line appears once
/// and each trace's own order stays. The merged trace is sorted by time only as far as both were.
///
/// Each trace has to be good by itself, with limits of its own, and no processor may have listed records in
/// both. The merged one may pass the limits of a trace: then [`judge`] refuses it.
///
/// All later places of the room are left as they were, and every place if the traces are refused.
///
/// ```
/// use cantuvesh::{Choice, Refusal, Which, merge};
///
/// let first = b"-3 7 0.000001 0 0 0\n-4 7 0.000005 0 0 0\n";
/// let second = b"-3 7 0.000002 1 0 0\n";
/// let mut room = vec![0; first.len() + second.len()];
/// let length = merge(first, second, Choice::Strict, &mut room)?;
/// assert_eq!(&room[..length], b"-3 7 0.000001 0 0 0\n-3 7 0.000002 1 0 0\n-4 7 0.000005 0 0 0\n");
///
/// let refused = merge(first, b"x\n", Choice::Strict, &mut room).unwrap_err();
/// assert_eq!((refused.refusal, refused.which), (Refusal::Form, Some(Which::Second)));
/// # Ok::<(), cantuvesh::Refused>(())
/// ```
///
/// # Errors
///
/// A trace is refused for one of the reasons 4 to 12 that [`Refusal`] has, and [`Refused`] says which one, at
/// which line and column; or the whole call is, for a processor in both (18) or too little room (16).
pub fn merge(first: &[u8], second: &[u8], choice: Choice, room: &mut [u8]) -> Result<usize, Refused> {
    let merged = raw::LINKED.merge(first, second, choice as u32, room);
    match merged.number {
        0 => Ok(merged.written as usize),
        _ => Err(Refused::merging(merged)),
    }
}

/// Lists the messages of one trace, and gives how many they are: they are `list[..many]`, one for each
/// receive, in file order of the receives. Each has the places of its send and of its receive, which count
/// the listed records from 0 in file order, as the times of [`judge`] do.
///
/// `trace`, `latencies` and `asked` are those of [`judge`]. Half as many places as [`TIMES`] are always
/// enough for the list; without a message an empty one is.
///
/// All later places of the list are left as they were, and every place if the call is refused.
///
/// ```
/// use cantuvesh::{Asked, Choice, Latencies, Levels, Message, Statistics, TIMES, messages};
///
/// let trace = b"-3 7 0.000009 0 0 0
/// -4 -52 0.000009 1 0 3 2 8 1 0
/// -3 -21 0.000010 0 0 3 2 8 1 1
/// ";
/// let asked = Asked { choice: Choice::Strict, levels: Levels::Off, statistics: Statistics::Off, share: 0 };
/// let mut list = [Message::default(); TIMES / 2];
/// let many = messages(trace, &Latencies::everywhere(5), asked, &mut list)?;
/// assert_eq!(list[..many], [Message { send: 2, receive: 1 }]);
/// # Ok::<(), cantuvesh::Refused>(())
/// ```
///
/// # Errors
///
/// What [`judge`] refuses is refused, for the same reason and at the same line and column; no times are lent
/// here, so that 2 means the table or the share. Then a list that is too short is (16).
pub fn messages(
    trace: &[u8],
    latencies: &[u32],
    asked: Asked,
    list: &mut [Message],
) -> Result<usize, Refused> {
    filled(raw::LINKED.messages(trace, latencies, asked.into(), list))
}

/// Tells why one record's time moved, and gives how many records are in the chain: they are `list[..many]`,
/// by their places, from the asked one back to one that is still at its original time.
///
/// Each step goes to the record before on the same processor, if that plus the gap that is kept between them
/// is its time, or from a receive to its send, if that plus the latency is. So the time of the last record in
/// the chain, and the latencies and kept gaps on the way, add up to the time of the first. It is a chain with
/// the fewest steps, and of those, at the first step where two differ, the one that goes to the record before
/// on the processor. A record that has not moved is alone in its chain.
///
/// `trace`, `latencies` and `asked` are those of [`judge`]; `place` counts the listed records from 0 in file
/// order, as its times do. [`TIMES`] places are always enough for the list.
///
/// All later places of the list are left as they were, and every place if the call is refused.
///
/// ```
/// use cantuvesh::{Asked, Choice, Latencies, Levels, Refusal, Statistics, TIMES, chain};
///
/// let trace = b"-3 -21 0.000010 0 0 3 2 8 1 1
/// -4 -52 0.000009 1 0 3 2 8 1 0
/// -3 7 0.000011 1 0 0
/// ";
/// let latencies = Latencies::everywhere(5);
/// let asked = Asked { choice: Choice::Strict, levels: Levels::Off, statistics: Statistics::Off, share: 0 };
/// let mut list = [0; TIMES];
/// let many = chain(trace, &latencies, asked, 2, &mut list)?;
/// assert_eq!(list[..many], [2, 1, 0]); // at 15 by 15 before it, that is 10 and 5
///
/// let refused = chain(trace, &latencies, asked, 3, &mut list).unwrap_err();
/// assert_eq!(refused.refusal, Refusal::NoSuchRecord);
/// # Ok::<(), cantuvesh::Refused>(())
/// ```
///
/// # Errors
///
/// What [`judge`] refuses is refused, as by [`messages`]. Then a place that is not below the number of listed
/// records is (22), and then a list that is too short (16).
pub fn chain(
    trace: &[u8],
    latencies: &[u32],
    asked: Asked,
    place: u64,
    list: &mut [u64],
) -> Result<usize, Refused> {
    filled(raw::LINKED.chain(trace, latencies, asked.into(), place, list))
}

/// How many places of a list are filled.
fn filled(filled: raw::Filled) -> Result<usize, Refused> {
    match filled.number {
        0 => Ok(filled.filled as usize),
        _ => Err(Refused::filling(filled)),
    }
}
