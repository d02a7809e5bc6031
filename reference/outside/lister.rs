//! The library as a lister of messages and chains: called by its binding, which gives the numbers as they
//! are.

use crate::archive::asked_of;
use cantuvesh::raw::{self, Library};
use reference::Question;
use reference::list::{Ends, Filled};
use std::mem::{align_of, offset_of, size_of};
use std::slice;

/// Lists the messages of a trace by the library.
pub fn messages(question: Question, list: &mut [Ends]) -> Filled {
    messages_by(raw::LINKED, question, list)
}

/// Lists the chain of a record by the library.
pub fn chain(question: Question, place: u64, list: &mut [u64]) -> Filled {
    chain_by(raw::LINKED, question, place, list)
}

/// Lists the messages of a trace by one library or another.
pub fn messages_by(library: Library, question: Question, list: &mut [Ends]) -> Filled {
    let Question { trace, latencies, asked } = question;
    filled_of(library.messages(trace, latencies, asked_of(asked), as_lent(list)))
}

/// Lists the chain of a record by one library or another.
pub fn chain_by(library: Library, question: Question, place: u64, list: &mut [u64]) -> Filled {
    let Question { trace, latencies, asked } = question;
    filled_of(library.chain(trace, latencies, asked_of(asked), place, list))
}

// The two are laid out alike.
const _: () = assert!(size_of::<Ends>() == size_of::<raw::Message>());
const _: () = assert!(align_of::<Ends>() == align_of::<raw::Message>());
const _: () = assert!(offset_of!(Ends, send) == offset_of!(raw::Message, send));
const _: () = assert!(offset_of!(Ends, receive) == offset_of!(raw::Message, receive));

/// The very places, so that it is seen what is touched of them and around them.
fn as_lent(list: &mut [Ends]) -> &mut [raw::Message] {
    // SAFETY: both are two numbers of 64 bits at the same places, as is asked above, of which all bits are
    // good; and the list is lent on for as long as it was lent.
    unsafe { slice::from_raw_parts_mut(list.as_mut_ptr().cast(), list.len()) }
}

/// The library's answer as the reference's.
fn filled_of(given: raw::Filled) -> Filled {
    let raw::Filled { number, line, column, filled } = given;
    Filled { number, line, column, filled }
}
