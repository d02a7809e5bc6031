//! A library of version 0.7 as a lister, in the place of `lister_before.rs`: it was not asked for statistics.

use crate::calls::without_statistics::{AskedBefore, asked_of};
use reference::Question;
use reference::list::{Ends, Filled};
use std::mem;

/// `struct cantuvesh_filled`, which is what it was.
#[repr(C)]
struct FilledBefore {
    number: u64,
    line: u64,
    column: u64,
    filled: u64,
}

impl FilledBefore {
    fn told(self) -> Filled {
        let FilledBefore { number, line, column, filled } = self;
        Filled { number, line, column, filled }
    }
}

type Messages = unsafe extern "C" fn(
    trace: *const u8,
    trace_len: usize,
    latencies: *const u32,
    latencies_len: usize,
    asked: AskedBefore,
    list: *mut Ends,
    list_len: usize,
) -> FilledBefore;

type Chain = unsafe extern "C" fn(
    trace: *const u8,
    trace_len: usize,
    latencies: *const u32,
    latencies_len: usize,
    asked: AskedBefore,
    place: u64,
    list: *mut u64,
    list_len: usize,
) -> FilledBefore;

unsafe extern "C" {
    fn cantuvesh_messages_before();
    fn cantuvesh_chain_before();
}

/// Lists the messages of a trace by the older library.
pub fn messages(question: Question, list: &mut [Ends]) -> Filled {
    let Question { trace, latencies, asked } = question;
    // SAFETY: these are the parameters of version 0.7.
    let messages = unsafe { mem::transmute::<unsafe extern "C" fn(), Messages>(cantuvesh_messages_before) };
    // SAFETY: each pointer comes with the length of its own slice, the list is laid out as C does it and lent
    // alone for the time of the call, and the function takes slices of any length.
    let filled = unsafe {
        messages(
            trace.as_ptr(),
            trace.len(),
            latencies.as_ptr(),
            latencies.len(),
            asked_of(asked),
            list.as_mut_ptr(),
            list.len(),
        )
    };
    filled.told()
}

/// Lists the chain of a record by the older library.
pub fn chain(question: Question, place: u64, list: &mut [u64]) -> Filled {
    let Question { trace, latencies, asked } = question;
    // SAFETY: these are the parameters of version 0.7.
    let chain = unsafe { mem::transmute::<unsafe extern "C" fn(), Chain>(cantuvesh_chain_before) };
    // SAFETY: each pointer comes with the length of its own slice, the list is lent alone for the time of the
    // call, and the function takes slices of any length.
    let filled = unsafe {
        chain(
            trace.as_ptr(),
            trace.len(),
            latencies.as_ptr(),
            latencies.len(),
            asked_of(asked),
            place,
            list.as_mut_ptr(),
            list.len(),
        )
    };
    filled.told()
}
