//! A table of latencies.

use crate::{LATENCIES, PROCESSORS};
use std::ops::{Deref, Index, IndexMut};

/// The least time that a message takes from each sender to each receiver, in microseconds. What is not
/// said of a pair is said of all of them first, so that no pair has a latency that nobody named.
///
/// ```
/// let mut latencies = cantuvesh::Latencies::everywhere(0);
/// latencies[(0, 1)] = 5; // from processor 0 to processor 1
/// assert_eq!((latencies[(0, 1)], latencies[(1, 0)]), (5, 0));
/// ```
///
/// To index it by a processor above 63 is a panic; a latency above
/// [`LATENCY_LIMIT`](crate::LATENCY_LIMIT) is refused by the call.
#[derive(Clone, Debug, PartialEq, Eq)]
pub struct Latencies(Box<[u32; LATENCIES]>);

impl Latencies {
    /// The same latency from everyone to everyone.
    pub fn everywhere(microseconds: u32) -> Latencies {
        Latencies(Box::new([microseconds; LATENCIES]))
    }
}

fn place((sender, receiver): (usize, usize)) -> usize {
    assert!(sender.max(receiver) < PROCESSORS, "processors are 0 to 63, and not {sender} and {receiver}");
    PROCESSORS * sender + receiver
}

impl Index<(usize, usize)> for Latencies {
    type Output = u32;

    /// The latency from a sender to a receiver.
    fn index(&self, pair: (usize, usize)) -> &u32 {
        &self.0[place(pair)]
    }
}

impl IndexMut<(usize, usize)> for Latencies {
    fn index_mut(&mut self, pair: (usize, usize)) -> &mut u32 {
        &mut self.0[place(pair)]
    }
}

/// As [`judge`](crate::judge) takes them.
impl Deref for Latencies {
    type Target = [u32];

    fn deref(&self) -> &[u32] {
        &*self.0
    }
}
