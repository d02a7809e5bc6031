//! An older library as a lister, from version 0.8 on. `reference/bench` has given its functions other names.

use crate::lister::{chain_by, messages_by};
use cantuvesh::raw::LINKED;
use reference::Question;
use reference::list::{Ends, Filled};

unsafe extern "C" {
    fn cantuvesh_messages_before();
    fn cantuvesh_chain_before();
}

/// Lists the messages of a trace by the older library.
pub fn messages(question: Question, list: &mut [Ends]) -> Filled {
    // SAFETY: this is the function of an older library with the same C call.
    messages_by(unsafe { LINKED.messages_by(cantuvesh_messages_before) }, question, list)
}

/// Lists the chain of a record by the older library.
pub fn chain(question: Question, place: u64, list: &mut [u64]) -> Filled {
    // SAFETY: this is the function of an older library with the same C call.
    chain_by(unsafe { LINKED.chain_by(cantuvesh_chain_before) }, question, place, list)
}
