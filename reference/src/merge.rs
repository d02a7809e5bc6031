//! Request 6 of document 02: the traces of two nodes merged into one.

use crate::form;
use crate::refusal::{ASKED, ROOM, Refusal, SHARED};
use crate::trace::{self, Record};
use crate::{Choice, PROCESSORS};
use std::iter;

/// What a caller of a merging gets back.
#[derive(Clone, Copy, Debug, Default, PartialEq, Eq)]
pub struct Merged {
    /// 0 for two traces that are merged, else the refusal.
    pub number: u64,
    /// The trace that the refusal means, 1 or 2; 0 for neither.
    pub which: u64,
    /// The line of that trace, counted from 1; 0 for none.
    pub line: u64,
    /// The column in that line, as an [`Answer`](crate::Answer) has it; 0 for none.
    pub column: u64,
    /// The length of the merged trace; 0 if refused.
    pub written: u64,
}

impl Merged {
    fn refused(which: u64, Refusal { number, line, column }: Refusal) -> Merged {
        Merged { number, which, line, column, written: 0 }
    }
}

/// Merges two traces, each of them good by itself. The merged one goes to the start of `room`; a refusal
/// touches nothing.
pub fn merge(first: &[u8], second: &[u8], choice: u32, room: &mut [u8]) -> Merged {
    accept(first, second, choice, room).unwrap_or_else(|refused| refused)
}

fn accept(first: &[u8], second: &[u8], choice: u32, room: &mut [u8]) -> Result<Merged, Merged> {
    let of_neither = |number| Merged::refused(0, Refusal::of_all(number));
    let choice = Choice::numbered(choice).ok_or(of_neither(ASKED))?;
    let read = |which, trace| trace::read(trace, choice).map_err(|refusal| Merged::refused(which, refusal));
    let (ours, theirs) = (read(1, first)?, read(2, second)?);
    if share_a_processor(&ours.records, &theirs.records) {
        return Err(of_neither(SHARED));
    }

    let text = lines(first, second).collect::<Vec<_>>().concat();
    let start = room.get_mut(..text.len()).ok_or(of_neither(ROOM))?;
    start.copy_from_slice(&text);
    Ok(Merged { written: text.len() as u64, ..Merged::default() })
}

/// Whether both hold a listed record of one processor.
fn share_a_processor(ours: &[Record], theirs: &[Record]) -> bool {
    let mut held = [false; PROCESSORS];
    for record in ours {
        held[record.processor] = true;
    }
    theirs.iter().any(|record| held[record.processor])
}

/// The lines of two good traces as they are merged, each a part of the trace that it comes from: "at each
/// step the line with the smaller timestamp goes next, the first trace's where equal".
pub fn lines<'a>(first: &'a [u8], second: &'a [u8]) -> impl Iterator<Item = &'a [u8]> {
    let [mut ours, mut theirs] = [first, second].map(|trace| {
        let lines = trace.split_inclusive(|&byte| byte == b'\n');
        lines.map(|line| (time(line), line)).peekable()
    });
    iter::from_fn(move || {
        let theirs_next = match (ours.peek(), theirs.peek()) {
            (Some((one, _)), Some((other, _))) => other < one,
            (one, _) => one.is_none(),
        };
        let (_, line) = if theirs_next { theirs.next() } else { ours.next() }?;
        Some(line)
    })
}

/// The timestamp of a good line, be it listed or passed over.
pub fn time(line: &[u8]) -> Option<i64> {
    form::time(line.split(|&byte| byte == b' ').nth(2)?)
}
