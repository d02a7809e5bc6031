//! Samples of calls, which are too short to be measured one by one.

use std::time::{Duration, Instant};

/// A sample is so many calls that it takes about this long.
const SAMPLE: Duration = Duration::from_micros(500);

/// How many calls like this one are a sample.
pub fn many_like(call: impl FnOnce()) -> u32 {
    let start = Instant::now();
    call();
    (SAMPLE.as_nanos() / start.elapsed().as_nanos().max(1)).max(1) as u32
}

/// The microseconds of one call, by a sample of so many.
pub fn microseconds(many: u32, mut call: impl FnMut()) -> f64 {
    let start = Instant::now();
    for _ in 0..many {
        call();
    }
    start.elapsed().as_secs_f64() * 1e6 / f64::from(many)
}
