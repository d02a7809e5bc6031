//! The library as a merger: called by its binding, which gives the numbers as they are.

use cantuvesh::raw::{self, Library};
use reference::merge::Merged;

/// Merges two traces by the library.
pub fn merge(first: &[u8], second: &[u8], choice: u32, room: &mut [u8]) -> Merged {
    merge_by(raw::LINKED, first, second, choice, room)
}

/// Merges two traces by one library or another.
pub fn merge_by(library: Library, first: &[u8], second: &[u8], choice: u32, room: &mut [u8]) -> Merged {
    let raw::Merged { number, which, line, column, written } = library.merge(first, second, choice, room);
    Merged { number, which, line, column, written }
}
