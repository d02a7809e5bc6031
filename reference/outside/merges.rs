//! Mergings by the library, by an older one and by the reference, taking turns.
//!
//! All of them write to the same room, which is not cleared between calls.

#[cfg(all(feature = "before", not(feature = "before-merge")))]
#[path = "merger_before.rs"]
mod merger_before;

use crate::turns::Sides;
use crate::{merger, sample};
use reference::generator::workload::Nodes;
use reference::merge::{Merged, merge};
use std::hint::black_box;

/// Who merges.
pub type Merge = fn(&[u8], &[u8], u32, &mut [u8]) -> Merged;

/// The older library, if it merges.
#[cfg(all(feature = "before", not(feature = "before-merge")))]
const BEFORE: Option<Merge> = Some(merger_before::merge);
#[cfg(not(all(feature = "before", not(feature = "before-merge"))))]
const BEFORE: Option<Merge> = None;

pub fn mergers() -> Sides<Merge> {
    Sides { ours: merger::merge, before: BEFORE, reference: merge }
}

/// Two traces that are merged again and again.
pub struct Merges<'a> {
    nodes: &'a Nodes,
    room: Vec<u8>,
    /// So many calls are a sample.
    many: u32,
    /// What every side answers.
    pub expected: Merged,
}

impl<'a> Merges<'a> {
    /// Lets every side merge them once, and tells where one of them differs from the reference.
    pub fn of(nodes: &'a Nodes) -> Result<Merges<'a>, String> {
        let room = vec![0; nodes.first.len() + nodes.second.len()];
        let mut merges = Merges { nodes, room, many: 1, expected: Merged::default() };
        let sides = mergers();
        merges.expected = merges.call(sides.reference);
        let expected = (merges.expected, merges.room.clone());
        for (side, &held) in sides.held_to_it() {
            merges.room.fill(0);
            let given = merges.call(held);
            if (given, &merges.room) != (expected.0, &expected.1) {
                let name = nodes.name;
                return Err(format!(
                    "{name}: answers or bytes differ, {side} and reference:\n  {given:?}\n  {:?}",
                    expected.0
                ));
            }
        }
        merges.many = sample::many_like(|| {
            black_box(merges.call(sides.reference));
        });
        Ok(merges)
    }

    fn call(&mut self, merge: Merge) -> Merged {
        let &Nodes { ref first, ref second, choice, .. } = self.nodes;
        merge(first, second, choice, &mut self.room)
    }

    /// The microseconds of one call, by a sample of calls.
    pub fn sample(&mut self, merge: Merge) -> f64 {
        sample::microseconds(self.many, || {
            black_box(self.call(merge));
        })
    }
}
