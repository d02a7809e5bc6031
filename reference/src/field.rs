//! Request 5 of document 02: the fields of a line, and the columns at which they begin.

use crate::refusal::{FORM, Fault};

/// A run of bytes between single spaces.
#[derive(Clone, Copy, Debug)]
pub struct Field<'a> {
    pub text: &'a [u8],
    /// Where it begins, counted from 1 in bytes. An empty field begins where its first byte would stand.
    pub column: u64,
}

impl Field<'_> {
    /// What it says in one of the forms; else it is refused by this number.
    pub fn read(self, form: fn(&[u8]) -> Option<i64>, number: u64) -> Result<i64, Fault> {
        form(self.text).ok_or(self.refused(number))
    }

    pub fn refused(self, number: u64) -> Fault {
        Fault { number, column: self.column }
    }
}

/// The fields of a line from left to right.
pub fn fields(line: &[u8]) -> impl Iterator<Item = Field<'_>> {
    let mut start = 1;
    line.split(|&byte| byte == b' ').map(move |text| {
        let column = start;
        start += text.len() as u64 + 1;
        Field { text, column }
    })
}

/// "Where a field or LF is missing, the column is one past the line's last byte, LF not counted."
pub fn missing(line: &[u8]) -> Fault {
    Fault { number: FORM, column: line.len() as u64 + 1 }
}
