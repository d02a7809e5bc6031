//! Document 01's "Numbers a caller gets back", with 17, 18, 19, 22 and the column of document 02.

pub const ASKED: u64 = 1;
/// A length, or the share.
pub const SIZE: u64 = 2;
pub const LATENCY: u64 = 3;
pub const BYTES: u64 = 4;
pub const FORM: u64 = 5;
pub const TIMESTAMP: u64 = 6;
pub const UNLISTED: u64 = 7;
pub const NOT_HANDLED: u64 = 8;
pub const PLACE: u64 = 9;
pub const MESSAGE: u64 = 10;
pub const ORDER: u64 = 11;
pub const RECORDS: u64 = 12;
pub const UNMATCHED: u64 = 13;
pub const LONG_RECEIVE: u64 = 14;
pub const NO_TIMES: u64 = 15;
pub const ROOM: u64 = 16;
pub const LEVELS: u64 = 17;
pub const SHARED: u64 = 18;
pub const STATISTICS: u64 = 19;
pub const NO_RECORD: u64 = 22;

/// A refusal with its line and its column, both counted from 1, 0 for none.
#[derive(Clone, Copy, Debug, PartialEq, Eq)]
pub struct Refusal {
    pub number: u64,
    pub line: u64,
    pub column: u64,
}

impl Refusal {
    /// A refusal that means no line.
    pub fn of_all(number: u64) -> Refusal {
        Refusal::of_line(number, 0)
    }

    /// A refusal that means a line, and no field of it.
    pub fn of_line(number: u64, line: u64) -> Refusal {
        Refusal { number, line, column: 0 }
    }
}

/// What is wrong with one line, 5 to 10, and the column of the field that decides.
#[derive(Clone, Copy, Debug, PartialEq, Eq)]
pub struct Fault {
    pub number: u64,
    pub column: u64,
}

impl Fault {
    /// The refusal, once it is known which line it was.
    pub fn in_line(self, line: u64) -> Refusal {
        let Fault { number, column } = self;
        Refusal { number, line, column }
    }
}
