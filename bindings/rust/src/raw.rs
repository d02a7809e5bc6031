//! The C calls as they are: the structs and the four functions of `include/cantuvesh.h`, for any numbers and
//! any lengths. This is the one place where the boundary is declared in Rust.

use std::mem;

/// `struct cantuvesh_asked`: what the caller names beside the trace and the table.
#[repr(C)]
#[derive(Clone, Copy, Debug, PartialEq, Eq)]
pub struct Asked {
    /// 1 strict, 2 lenient; all else is refusal 1.
    pub choice: u32,
    /// Whether tracing levels are expected: 0 off, 1 on; all else is refusal 1.
    pub levels: u32,
    /// The expected level of PICL events. The three may be any numbers, and are not looked at where they
    /// are off.
    pub picl: i64,
    /// The expected level of user events.
    pub user: i64,
    /// The expected level of trace events.
    pub trace: i64,
    /// Whether statistics records are compared: 0 off, 1 on; all else is refusal 1.
    pub statistics: u32,
    /// How many thousandths are kept of each gap: 0 to 1,000; all else is refusal 2.
    pub share: u32,
}

/// `struct cantuvesh_answer`: a refusal has its number, line and column, and 0 in all the rest.
#[repr(C)]
#[derive(Clone, Copy, Debug, PartialEq, Eq)]
pub struct Answer {
    /// 0 accepted, else the refusal.
    pub number: u64,
    /// The refused line, counted from 1; 0 where no line is meant.
    pub line: u64,
    /// The column of the field that decides a refusal from 5 to 10, counted from 1 in bytes; 0 for all else.
    pub column: u64,
    /// 1 consistent, 2 corrected, 3 nothing to judge.
    pub verdict: u64,
    /// Listed records: so many of the lent times are written.
    pub listed: u64,
    /// Lines passed over.
    pub passed: u64,
    /// Messages, each a receive with its send.
    pub matched: u64,
    /// Sends that no receive belongs to.
    pub unreceived: u64,
    /// The first round of corrections that the next one repeats.
    pub rounds: u64,
    /// Bytes of the written trace; 0 if it was not wanted.
    pub written: u64,
}

/// `struct cantuvesh_merged`: a refusal has all but `written`, two traces that are merged have that alone.
#[repr(C)]
#[derive(Clone, Copy, Debug, PartialEq, Eq)]
pub struct Merged {
    /// 0 merged, else the refusal.
    pub number: u64,
    /// The trace that a refusal from 4 to 12 means, 1 or 2; 0 for all else.
    pub which: u64,
    /// The refused line of that trace, counted from 1; 0 where no line is meant.
    pub line: u64,
    /// The column of the field that decides a refusal from 5 to 10, counted from 1 in bytes; 0 for all else.
    pub column: u64,
    /// Bytes of the merged trace.
    pub written: u64,
}

/// `struct cantuvesh_message`: the places of a message's two records. Places count the listed records from 0
/// in file order.
#[repr(C)]
#[derive(Clone, Copy, Debug, Default, PartialEq, Eq, Hash)]
pub struct Message {
    /// The place of the send.
    pub send: u64,
    /// The place of the receive.
    pub receive: u64,
}

/// `struct cantuvesh_filled`: a refusal has all but `filled`, a list that is filled has that alone.
#[repr(C)]
#[derive(Clone, Copy, Debug, PartialEq, Eq)]
pub struct Filled {
    /// 0 filled, else the refusal.
    pub number: u64,
    /// The refused line, counted from 1; 0 where no line is meant.
    pub line: u64,
    /// The column of the field that decides a refusal from 5 to 10, counted from 1 in bytes; 0 for all else.
    pub column: u64,
    /// Places of the list that are filled, from its first on.
    pub filled: u64,
}

type Judge = unsafe extern "C" fn(
    trace: *const u8,
    trace_len: usize,
    latencies: *const u32,
    latencies_len: usize,
    asked: Asked,
    times: *mut i64,
    times_len: usize,
    wanted: bool,
    room: *mut u8,
    room_len: usize,
) -> Answer;

type Merge = unsafe extern "C" fn(
    first: *const u8,
    first_len: usize,
    second: *const u8,
    second_len: usize,
    choice: u32,
    room: *mut u8,
    room_len: usize,
) -> Merged;

type Messages = unsafe extern "C" fn(
    trace: *const u8,
    trace_len: usize,
    latencies: *const u32,
    latencies_len: usize,
    asked: Asked,
    list: *mut Message,
    list_len: usize,
) -> Filled;

type Chain = unsafe extern "C" fn(
    trace: *const u8,
    trace_len: usize,
    latencies: *const u32,
    latencies_len: usize,
    asked: Asked,
    place: u64,
    list: *mut u64,
    list_len: usize,
) -> Filled;

// Only where they are: their parameters stand in `Judge`, `Merge`, `Messages` and `Chain`.
unsafe extern "C" {
    fn cantuvesh_judge();
    fn cantuvesh_merge();
    fn cantuvesh_messages();
    fn cantuvesh_chain();
}

/// The library that this package is linked with.
// SAFETY: these are the functions of `include/cantuvesh.h`.
pub const LINKED: Library = unsafe {
    Library {
        judge: judge_at(cantuvesh_judge),
        merge: merge_at(cantuvesh_merge),
        messages: messages_at(cantuvesh_messages),
        chain: chain_at(cantuvesh_chain),
    }
};

/// # Safety
///
/// The function is declared in C as `cantuvesh_judge` is in `include/cantuvesh.h`.
const unsafe fn judge_at(function: unsafe extern "C" fn()) -> Judge {
    // SAFETY: the caller knows that the function has these parameters.
    unsafe { mem::transmute::<unsafe extern "C" fn(), Judge>(function) }
}

/// # Safety
///
/// The function is declared in C as `cantuvesh_merge` is in `include/cantuvesh.h`.
const unsafe fn merge_at(function: unsafe extern "C" fn()) -> Merge {
    // SAFETY: the caller knows that the function has these parameters.
    unsafe { mem::transmute::<unsafe extern "C" fn(), Merge>(function) }
}

/// # Safety
///
/// The function is declared in C as `cantuvesh_messages` is in `include/cantuvesh.h`.
const unsafe fn messages_at(function: unsafe extern "C" fn()) -> Messages {
    // SAFETY: the caller knows that the function has these parameters.
    unsafe { mem::transmute::<unsafe extern "C" fn(), Messages>(function) }
}

/// # Safety
///
/// The function is declared in C as `cantuvesh_chain` is in `include/cantuvesh.h`.
const unsafe fn chain_at(function: unsafe extern "C" fn()) -> Chain {
    // SAFETY: the caller knows that the function has these parameters.
    unsafe { mem::transmute::<unsafe extern "C" fn(), Chain>(function) }
}

/// A library, by its functions.
#[derive(Clone, Copy, Debug)]
pub struct Library {
    judge: Judge,
    merge: Merge,
    messages: Messages,
    chain: Chain,
}

impl Library {
    /// The same, but it judges by this function: that of a library which is linked under another name. To
    /// declare it by `unsafe extern "C" { fn name(); }` is enough: its parameters are known here.
    ///
    /// # Safety
    ///
    /// The function is declared in C as `cantuvesh_judge` is in `include/cantuvesh.h`, and does what is
    /// said there.
    pub const unsafe fn judging_by(self, function: unsafe extern "C" fn()) -> Library {
        // SAFETY: the caller knows that the function has these parameters.
        Library { judge: unsafe { judge_at(function) }, ..self }
    }

    /// The same, but it merges by this function.
    ///
    /// # Safety
    ///
    /// The function is declared in C as `cantuvesh_merge` is in `include/cantuvesh.h`, and does what is
    /// said there.
    pub const unsafe fn merging_by(self, function: unsafe extern "C" fn()) -> Library {
        // SAFETY: the caller knows that the function has these parameters.
        Library { merge: unsafe { merge_at(function) }, ..self }
    }

    /// The same, but it lists messages by this function.
    ///
    /// # Safety
    ///
    /// The function is declared in C as `cantuvesh_messages` is in `include/cantuvesh.h`, and does what is
    /// said there.
    pub const unsafe fn messages_by(self, function: unsafe extern "C" fn()) -> Library {
        // SAFETY: the caller knows that the function has these parameters.
        Library { messages: unsafe { messages_at(function) }, ..self }
    }

    /// The same, but it gives chains by this function.
    ///
    /// # Safety
    ///
    /// The function is declared in C as `cantuvesh_chain` is in `include/cantuvesh.h`, and does what is said
    /// there.
    pub const unsafe fn chain_by(self, function: unsafe extern "C" fn()) -> Library {
        // SAFETY: the caller knows that the function has these parameters.
        Library { chain: unsafe { chain_at(function) }, ..self }
    }

    /// Judges one trace, and gives the ten numbers as they are. `include/cantuvesh.h` says what every
    /// argument means.
    pub fn judge(
        self,
        trace: &[u8],
        latencies: &[u32],
        asked: Asked,
        times: &mut [i64],
        wanted: bool,
        room: &mut [u8],
    ) -> Answer {
        // SAFETY: each pointer comes with the length of its own slice, the two that are written to are
        // lent alone for the time of the call, and the function takes slices of any length.
        unsafe {
            (self.judge)(
                trace.as_ptr(),
                trace.len(),
                latencies.as_ptr(),
                latencies.len(),
                asked,
                times.as_mut_ptr(),
                times.len(),
                wanted,
                room.as_mut_ptr(),
                room.len(),
            )
        }
    }

    /// Merges two traces, and gives the five numbers as they are. `include/cantuvesh.h` says what every
    /// argument means.
    pub fn merge(self, first: &[u8], second: &[u8], choice: u32, room: &mut [u8]) -> Merged {
        // SAFETY: each pointer comes with the length of its own slice, the room is lent alone for the time of
        // the call, and the function takes slices of any length.
        unsafe {
            (self.merge)(
                first.as_ptr(),
                first.len(),
                second.as_ptr(),
                second.len(),
                choice,
                room.as_mut_ptr(),
                room.len(),
            )
        }
    }

    /// Lists the messages of one trace, and gives the four numbers as they are. `include/cantuvesh.h` says
    /// what every argument means.
    pub fn messages(self, trace: &[u8], latencies: &[u32], asked: Asked, list: &mut [Message]) -> Filled {
        // SAFETY: each pointer comes with the length of its own slice, the list is lent alone for the time of
        // the call, and the function takes slices of any length.
        unsafe {
            (self.messages)(
                trace.as_ptr(),
                trace.len(),
                latencies.as_ptr(),
                latencies.len(),
                asked,
                list.as_mut_ptr(),
                list.len(),
            )
        }
    }

    /// Gives the chain of one record, and the four numbers as they are. `include/cantuvesh.h` says what every
    /// argument means.
    pub fn chain(
        self,
        trace: &[u8],
        latencies: &[u32],
        asked: Asked,
        place: u64,
        list: &mut [u64],
    ) -> Filled {
        // SAFETY: each pointer comes with the length of its own slice, the list is lent alone for the time of
        // the call, and the function takes slices of any length.
        unsafe {
            (self.chain)(
                trace.as_ptr(),
                trace.len(),
                latencies.as_ptr(),
                latencies.len(),
                asked,
                place,
                list.as_mut_ptr(),
                list.len(),
            )
        }
    }
}
