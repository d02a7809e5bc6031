//! The C call by which an older library judges, where what it is asked or what it answers was another struct.

use reference::Inputs;
use std::mem;

type Judge<AskedBefore, AnswerBefore> = unsafe extern "C" fn(
    trace: *const u8,
    trace_len: usize,
    latencies: *const u32,
    latencies_len: usize,
    asked: AskedBefore,
    times: *mut i64,
    times_len: usize,
    wanted: bool,
    room: *mut u8,
    room_len: usize,
) -> AnswerBefore;

// Only where it is: its two structs are others from version to version.
unsafe extern "C" {
    fn cantuvesh_judge_before();
}

/// Judges a trace by such a library.
///
/// # Safety
///
/// `AskedBefore` and `AnswerBefore` are laid out as `struct cantuvesh_asked` and `struct cantuvesh_answer` were
/// in that library's version.
pub unsafe fn judge<AskedBefore, AnswerBefore>(asked: AskedBefore, call: Inputs) -> AnswerBefore {
    let Inputs { trace, latencies, times, wanted, room, .. } = call;
    // SAFETY: these are the parameters of every version, the structs being as the caller says.
    let judge = unsafe {
        mem::transmute::<unsafe extern "C" fn(), Judge<AskedBefore, AnswerBefore>>(cantuvesh_judge_before)
    };
    // SAFETY: each pointer comes with the length of its own slice, the two that are written to are lent alone
    // for the time of the call, and the function takes slices of any length.
    unsafe {
        judge(
            trace.as_ptr(),
            trace.len(),
            latencies.as_ptr(),
            latencies.len(),
            asked,
            times.as_mut_ptr(),
            times.len(),
            wanted,
            room.as_mut_ptr(),
            room.len(),
        )
    }
}
