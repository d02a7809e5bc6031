//! Request 7 of document 02: the messages of a trace, and the chain that moved a record, each in a lent list.

use crate::chain::{IN_ORDER, Moved};
use crate::refusal::{NO_RECORD, ROOM, Refusal};
use crate::{MAX_RECORDS, Question, Solved, solve};

/// What a caller who lends a list gets back.
#[derive(Clone, Copy, Debug, Default, PartialEq, Eq)]
pub struct Filled {
    /// 0 for a list that is filled, else the refusal.
    pub number: u64,
    /// The line that the refusal means, counted from 1; 0 for none.
    pub line: u64,
    /// The column in that line, as an [`Answer`](crate::Answer) has it; 0 for none.
    pub column: u64,
    /// How many places are filled; 0 if refused.
    pub filled: u64,
}

impl Filled {
    fn of(answer: Result<usize, Refusal>) -> Filled {
        match answer {
            Ok(filled) => Filled { filled: filled as u64, ..Filled::default() },
            Err(Refusal { number, line, column }) => Filled { number, line, column, filled: 0 },
        }
    }
}

/// A message by the places of its records, which count the listed ones from 0 in file order. Laid out as C
/// does it, so that the library can be lent such a list.
#[repr(C)]
#[derive(Clone, Copy, Debug, Default, PartialEq, Eq)]
pub struct Ends {
    pub send: u64,
    pub receive: u64,
}

/// So few records have so few ways back that all of them can be tried.
pub const FEW: usize = 12;

/// Lists the messages of a trace, in file order of the receives. A refusal touches nothing, and no place
/// behind the last message is touched.
pub fn messages(question: Question, list: &mut [Ends]) -> Filled {
    Filled::of(solve(question, MAX_RECORDS).and_then(|solved| fill(list, &ends(&solved))))
}

/// Lists the chain of the record at a place, which counts as those of messages do.
pub fn chain(question: Question, place: u64, list: &mut [u64]) -> Filled {
    Filled::of(solve(question, MAX_RECORDS).and_then(|solved| {
        let asked = listed(&solved, place).ok_or(Refusal::of_all(NO_RECORD))?;
        fill(list, &chain_of(&solved, asked))
    }))
}

/// The messages of an accepted trace.
pub fn ends(solved: &Solved) -> Vec<Ends> {
    let send_of = solved.messages.send_of.iter().enumerate();
    send_of
        .filter_map(|(receive, &send)| Some(Ends { send: send? as u64, receive: receive as u64 }))
        .collect()
}

/// The place of a listed record, if there is one.
fn listed(solved: &Solved, place: u64) -> Option<usize> {
    usize::try_from(place).ok().filter(|&place| place < solved.records.len())
}

/// The chain of a record of an accepted trace: of few records by trying all ways, else by looking near it
/// first.
fn chain_of(solved: &Solved, asked: usize) -> Vec<u64> {
    let moved = Moved::of(solved);
    let chain = match solved.records.len() {
        ..=FEW => moved.of_all(asked),
        _ => moved.nearest(asked, IN_ORDER),
    };
    let chain = chain.expect("where times are the least, each is there by a chain");
    chain.into_iter().map(|place| place as u64).collect()
}

/// Puts these at the start of a list.
fn fill<T: Copy>(list: &mut [T], filled: &[T]) -> Result<usize, Refusal> {
    let start = list.get_mut(..filled.len()).ok_or(Refusal::of_all(ROOM))?;
    start.copy_from_slice(filled);
    Ok(filled.len())
}
