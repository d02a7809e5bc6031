//! Why a trace, or a whole call, is refused.

use crate::raw;
use std::error::Error;
use std::fmt;
use std::num::NonZero;

/// Makes the enum of its cases, each with its number and its sentence.
macro_rules! refusals {
    ($($name:ident = $number:literal $sentence:literal)*) => {
        /// The reason of a refusal; each has the number that the paper and the C call give it. More may
        /// follow.
        #[derive(Clone, Copy, Debug, PartialEq, Eq, Hash)]
        #[non_exhaustive]
        pub enum Refusal {
            $(#[doc = concat!($number, ": ", $sentence, ".")] $name = $number,)*
        }

        impl Refusal {
            fn numbered(number: u64) -> Option<Refusal> {
                match number {
                    $($number => Some(Refusal::$name),)*
                    _ => None,
                }
            }

            /// What it means, in a person's words.
            pub fn sentence(self) -> &'static str {
                match self {
                    $(Refusal::$name => $sentence,)*
                }
            }
        }
    };
}

refusals! {
    Choice = 1 "the choice is neither 1 (strict) nor 2 (lenient), or the levels' or the statistics' switch is neither 0 (off) nor 1 (on)"
    Lengths = 2 "the table or the lent times have the wrong length, or the share is above 1,000"
    Latency = 3 "a latency is above 1,000,000"
    TraceTooLong = 4 "the trace is longer than 65,536 bytes"
    Form = 5 "the form of the line, or of a field of it other than the timestamp, is bad (bad data too)"
    Timestamp = 6 "the form of the timestamp is bad"
    Unlisted = 7 "the record type or the event type is not listed, and the choice is strict"
    NotHandled = 8 "the event is a message event that is not handled, under either choice"
    Place = 9 "a listed record's processor is outside 0 to 63, or its process is not 0"
    MessageData = 10 "a send or a receive is without its three good data"
    Order = 11 "the time is below the last listed one of its processor"
    TooManyRecords = 12 "there is a listed record number 2,049"
    NoSend = 13 "the receive has no matching send"
    LongReceive = 14 "the receive's length is above its send's"
    NoTimes = 15 "no times exist: a ring of waits adds up to more than 0, or a time would be beyond the format's end"
    RoomTooShort = 16 "the trace to be written, corrected or merged, is longer than the room, or the list to be filled is too short"
    Levels = 17 "a processor with listed records has no tracing-level mark that counts, or its last one is not what is expected"
    SharedProcessor = 18 "both of the traces to be merged hold a listed record of the same processor"
    Statistics = 19 "a statistics record tells another time, count or volume of an event than its processor's records before it give"
    NoSuchRecord = 22 "there is no such listed record: the place is not below their number, or none stands on the asked line"
}

impl Refusal {
    /// Its number, from 1.
    pub fn number(self) -> u64 {
        self as u64
    }
}

impl fmt::Display for Refusal {
    fn fmt(&self, out: &mut fmt::Formatter) -> fmt::Result {
        out.write_str(self.sentence())
    }
}

/// Which of the traces to be merged.
#[derive(Clone, Copy, Debug, PartialEq, Eq, Hash)]
pub enum Which {
    /// The first.
    First = 1,
    /// The second.
    Second = 2,
}

impl Which {
    fn numbered(number: u64) -> Option<Which> {
        match number {
            0 => None,
            1 => Some(Which::First),
            2 => Some(Which::Second),
            other => panic!("the library refused trace {other}, which is none"),
        }
    }
}

/// The answer on a trace, or a whole call, that is refused.
///
/// ```
/// use cantuvesh::{Asked, Choice, Latencies, Levels, Statistics, TIMES, judge};
///
/// let trace = b"-3 7 0.000000 0 0 0\n-4 7 0.000001 0 0 3 2 8 one 1\n";
/// let asked = Asked { choice: Choice::Strict, levels: Levels::Off, statistics: Statistics::Off, share: 0 };
/// let refused = judge(trace, &Latencies::everywhere(0), asked, &mut [0; TIMES], None).unwrap_err();
/// let (line, column) = (refused.line.unwrap().get(), refused.column.unwrap().get());
/// assert_eq!((refused.refusal.number(), line, column), (5, 2, 25));
/// assert!(refused.to_string().starts_with("refused 5 line 2 column 25: the form of the line"));
/// ```
#[derive(Clone, Copy, Debug, PartialEq, Eq, Hash)]
pub struct Refused {
    /// The reason.
    pub refusal: Refusal,
    /// The trace that it means, where two were to be merged; none where both or the whole call are meant, and
    /// where there was one.
    pub which: Option<Which>,
    /// The line that it means, counted from 1 in its own trace; none where no line is meant.
    pub line: Option<NonZero<u64>>,
    /// Where the field that decides begins in the line, counted from 1 in bytes; one past the line's last
    /// byte where a field or the LF is missing. The refusals 5 to 10 have it, and no others.
    pub column: Option<NonZero<u64>>,
}

impl Refused {
    pub(crate) fn judging(raw::Answer { number, line, column, .. }: raw::Answer) -> Refused {
        Refused::of(number, 0, line, column)
    }

    pub(crate) fn merging(raw::Merged { number, which, line, column, .. }: raw::Merged) -> Refused {
        Refused::of(number, which, line, column)
    }

    pub(crate) fn filling(raw::Filled { number, line, column, .. }: raw::Filled) -> Refused {
        Refused::of(number, 0, line, column)
    }

    /// By its numbers.
    fn of(number: u64, which: u64, line: u64, column: u64) -> Refused {
        let refusal = Refusal::numbered(number);
        let refusal = refusal.unwrap_or_else(|| panic!("the library gave refusal {number}, which is none"));
        let which = Which::numbered(which);
        Refused { refusal, which, line: NonZero::new(line), column: NonZero::new(column) }
    }
}

impl fmt::Display for Refused {
    fn fmt(&self, out: &mut fmt::Formatter) -> fmt::Result {
        write!(out, "refused {}", self.refusal.number())?;
        if let Some(which) = self.which {
            write!(out, " trace {}", which as u64)?;
        }
        if let Some(line) = self.line {
            write!(out, " line {line}")?;
        }
        if let Some(column) = self.column {
            write!(out, " column {column}")?;
        }
        write!(out, ": {}", self.refusal)
    }
}

impl Error for Refused {}
