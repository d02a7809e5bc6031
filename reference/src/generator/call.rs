//! The rest of a call: how much room, and what a careless caller hands over.

use super::Case;
use super::random::Random;
use super::share;
use crate::{LATENCIES, MAX_BYTES, MAX_LATENCY, MAX_RECORDS};

/// Choices that are none.
const WRONG_CHOICES: [u32; 8] = [0, 3, 4, u32::MAX, 1 << 16, 257, 0x8000_0001, 0x8000_0002];

pub fn wrong_choice(random: &mut Random) -> u32 {
    random.pick(&WRONG_CHOICES)
}

fn wrong_switch(random: &mut Random) -> u32 {
    random.pick(&[2, 2, 3, u32::MAX, 1 << 16, 256, 257, 0x8000_0000, 0x8000_0001])
}

/// Room for what a case writes. A trace that is refused anyway has some room, too, to be left alone.
pub fn room(case: &Case, random: &mut Random) -> usize {
    let answer = case.unhindered();
    let needed = if answer.number == 0 { answer.written as usize } else { case.trace.len().min(200) };
    room_about(needed, case.trace.len(), random)
}

/// Room of a length that tells: just enough, one byte short, none, or more than is needed; or as much as
/// something else has.
pub fn room_about(needed: usize, other: usize, random: &mut Random) -> usize {
    match random.below(20) {
        0..9 => needed,
        9..12 => needed.saturating_sub(1),
        12 => 0,
        13 => random.place(needed + 1),
        14 => other,
        15 => MAX_BYTES,
        _ => needed + random.place(100),
    }
}

/// Now and then a wrong choice or switch, a slice of the wrong length, a share or a latency above the limit,
/// or several of them at once.
pub fn spoil(case: &mut Case, random: &mut Random) {
    let often = if random.chance(10) { 20 } else { 1 };
    if random.chance(often) {
        let which = random.below(7);
        if which < 3 {
            case.asked.choice = wrong_choice(random);
        }
        if (2..5).contains(&which) {
            case.asked.levels = wrong_switch(random);
        }
        if which > 3 {
            case.asked.statistics = wrong_switch(random);
        }
    }
    if random.chance(often) {
        let length = random.pick(&[0, 1, LATENCIES - 1, LATENCIES + 1, 2 * LATENCIES, MAX_RECORDS]);
        case.latencies.resize(length, 0);
    }
    if random.chance(often) {
        case.times = random.pick(&[0, 1, MAX_RECORDS - 1, MAX_RECORDS + 1, 2 * MAX_RECORDS, LATENCIES]);
    }
    if random.chance(often) {
        case.asked.share = share::wrong(random);
    }
    if random.chance(often) && !case.latencies.is_empty() {
        let any = random.place(case.latencies.len());
        let place = random.pick(&[0, any, case.latencies.len() - 1]);
        case.latencies[place] = random.pick(&[MAX_LATENCY, MAX_LATENCY + 1, u32::MAX, 1 << 31]);
    }
}
