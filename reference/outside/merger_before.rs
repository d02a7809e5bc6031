//! An older library as a merger, from version 0.6 on. `reference/bench` has given its function another name.

use crate::merger::merge_by;
use cantuvesh::raw::LINKED;
use reference::merge::Merged;

unsafe extern "C" {
    fn cantuvesh_merge_before();
}

/// Merges two traces by the older library.
pub fn merge(first: &[u8], second: &[u8], choice: u32, room: &mut [u8]) -> Merged {
    // SAFETY: this is the function of an older library with the same C call.
    merge_by(unsafe { LINKED.merging_by(cantuvesh_merge_before) }, first, second, choice, room)
}
