//! Buffers with a slice that is lent in a call, so that it can be seen what the call has touched.

use std::fmt;

/// Places before and after each lent slice, which nobody may touch.
const MARGIN: usize = 16;

/// A buffer with a lent slice somewhere inside.
#[derive(Default)]
pub struct Lent<T> {
    buffer: Vec<T>,
    start: usize,
    length: usize,
}

impl<T: Copy + PartialEq + fmt::Debug> Lent<T> {
    /// Fills the whole buffer with a pattern and lends so many places of it.
    pub fn prepare(&mut self, offset: usize, length: usize, pattern: impl FnMut(usize) -> T) {
        self.start = MARGIN + offset % MARGIN;
        self.length = length;
        self.buffer.clear();
        self.buffer.extend((0..self.start + length + MARGIN).map(pattern));
    }

    /// The same, with these in the lent places.
    pub fn prepare_with(&mut self, offset: usize, lent: &[T], pattern: impl FnMut(usize) -> T) {
        self.prepare(offset, lent.len(), pattern);
        self.slice().copy_from_slice(lent);
    }

    pub fn slice(&mut self) -> &mut [T] {
        // An empty slice need not stand in any buffer.
        if self.length == 0 && self.start.is_multiple_of(2) {
            return &mut [];
        }
        &mut self.buffer[self.start..self.start + self.length]
    }

    /// The first place at which two buffers that were prepared alike differ.
    pub fn difference(&self, name: &str, other: &Lent<T>) -> Option<String> {
        if self.buffer == other.buffer {
            return None;
        }
        let place = self.buffer.iter().zip(&other.buffer).position(|(one, other)| one != other)?;
        Some(format!(
            "{name} differ at place {} of {}:\n  {:?}\n  {:?}",
            place as i64 - self.start as i64,
            self.length,
            self.buffer[place],
            other.buffer[place]
        ))
    }
}

/// What a seed puts into a place beforehand.
pub fn pattern(seed: u64, place: usize) -> u64 {
    (seed ^ place as u64).wrapping_mul(0x9e37_79b9_7f4a_7c15)
}
