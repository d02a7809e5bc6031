//! Lines that are good or bad by a hair: every start of a line with every end of one.

use super::random::Random;
use super::record::{good_lines_behind, joined};
use super::{Draft, flat_table};
use crate::form::write_time;

/// Record type and event type: sends and receives, other records of their events, those not handled beside
/// them, unlisted ones, the rest, and statistics with what stands beside their types.
const STARTS: [&str; 54] = [
    "-3 -21", "-3 -21", "-3 -27", "-3 -27", "-4 -51", "-4 -52", "-4 -52", "-4 -58", "-4 -60", "-4 -60",
    "-4 -61", "-4 -21", "-2 -21", "-3 -51", "0 -52", "-4 -27", "-2 -27", "-3 -28", "-3 -29", "-4 -30",
    "-3 -31", "-3 -57", "-4 -57", "-3 -58", "-4 -59", "-3 -60", "-2 -60", "0 -60", "0 -61", "-3 -26",
    "-3 -32", "-4 -53", "-4 -56", "-4 -62", "-2 -80", "-5 0", "1 -21", "-5 -60", "-5 -62", "-2 -81",
    "-4 -905", "0 0", "-2 999999999", "-2 -904", "-101 -1", "-102 -1", "-103 -1", "-101 0", "-102 -62",
    "-103 -905", "-102 999999999", "-100 -1", "-104 -1", "-101 -2",
];

/// Processor, process, data count and what follows it.
const ENDS: [&str; 85] = [
    "63 0 0",
    "64 0 0",
    "-1 0 0",
    "0 1 0",
    "0 -1 0",
    "0 0 0",
    "0 0 0 ",
    "0 0 0 x",
    "0 0 0\r",
    "0 0 1",
    "0 0 1 ",
    "0 0 1  ",
    "0 0 1 \r",
    "0 0 1\r",
    "0 0 1 x",
    "0 0 1 2",
    "0 0 1 2 ",
    "0 0 1 2 7",
    "0 0 1 2 7 ",
    "0 0 1 2  7",
    "0 0 1 2 7 7",
    "0 0 1 1 7",
    "0 0 1 3 7",
    "0 0 1 3 0.000001",
    "0 0 1 4 0.000001",
    "0 0 1 02 7",
    "0 0 1 5 7",
    "0 0 1 5 0.000000",
    "0 0 1 5 -0.000000",
    "0 0 1 2 -0",
    "0 0 1 2 999999999",
    "0 0 1 2 1000000000",
    "0 0 16 2 1 1 1 1 1 1 1 1 1 1 1 1 1 1 1",
    "0 0 16 2 1 1 1 1 1 1 1 1 1 1 1 1 1 1 1 1",
    "0 0 16 2 1 1 1 1 1 1 1 1 1 1 1 1 1 1 1 1 1",
    "0 0 17 2 1 1 1 1 1 1 1 1 1 1 1 1 1 1 1 1 1",
    "0 0 17 5 0.000001",
    "0 0 999 x",
    "0 0 999 ",
    "0 0 1000 x",
    "0 0 -1",
    "0 0 03 2 8 1 0",
    "0 0 3 2 8 1 0",
    "0 0 3 2 0 1 0",
    "0 0 3 2 -1 1 0",
    "0 0 3 2 8 -1 0",
    "0 0 3 2 8 1 63",
    "63 0 3 2 8 1 0",
    "0 0 3 2 8 1 64",
    "0 0 3 2 8 1 -1",
    "0 0 3 2 8 1",
    "0 0 3 2 8 1 0 ",
    "0 0 3 2 8 1 0 0",
    "0 0 4 2 8 1 0 0",
    "0 0 2 2 8 1",
    "0 0 3 5 0.000008 0.000001 0.000000",
    "0 0 3 5 8 1 0",
    "0 0 3 02 8 1 0",
    "64 0 0 ",
    "64 0 17 2",
    "0 1 1 x",
    "0 0 1 \"%d%d\" -21 0",
    "0 0 1 \"%d%lf\" -21 0.000000",
    "0 0 1 \"%d%d\" -21 -1",
    "0 0 1 \"%d%lf\" -21 -1.000000",
    "0 0 1 \"%d%lf\" -21 -1",
    "0 0 1 \"%d%d\" -21 -1.000000",
    "0 0 1 \"%d%d\" -21",
    "0 0 1 \"%d%d\" -21 ",
    "0 0 1 \"%d%d\"",
    "0 0 1 \"%d%d\" -21 0 0",
    "0 0 1 \"%d%d\" -21 0 ",
    "0 0 1 \"%d%d -21 0",
    "0 0 1 %d%d\" -21 0",
    "0 0 1 %d%d -21 0",
    "0 0 1 \"%d%lf -21 0.000000",
    "0 0 1 \"%d%f\" -21 0.000000",
    "0 0 1 \"%D%d\" -21 0",
    "0 0 1 \"%d%d\"\" -21 0",
    "0 0 2 \"%d%d\" -21 0 0 0",
    "0 0 2 \"%d%lf\" -21 0.000000 0 0.000001",
    "0 0 2 \"%d%lf\" -21 0.000000 0",
    "0 0 16 \"%d%d\" 1 1 1 1 1 1 1 1 1 1 1 1 1 1 1 1 1 1 1 1 1 1 1 1 1 1 1 1 1 1 1 1",
    "0 0 17 \"%d%d\" 1 1 1 1 1 1 1 1 1 1 1 1 1 1 1 1 1 1 1 1 1 1 1 1 1 1 1 1 1 1 1 1 1 1",
    "0 0 16 \"%d%d\" 1 1 1 1 1 1 1 1 1 1 1 1 1 1 1 1 1 1 1 1 1 1 1 1 1 1 1 1 1 1 1",
];

/// One to three such lines, their times in order but for now and then, and often good ones behind them.
pub fn lines(random: &mut Random) -> Draft {
    let mut time = random.between(-2, 2);
    let mut lines: Vec<Vec<u8>> = (0..random.pick(&[1, 1, 2, 3]))
        .map(|_| {
            time += random.pick(&[0, 1, 1, 5]);
            line(random, time)
        })
        .collect();
    if random.chance(60) {
        lines.extend(good_lines_behind(random));
    }
    Draft { kind: "near", trace: joined(&lines), latencies: flat_table(0) }
}

/// A line of about this time: one microsecond below it now and then.
pub fn line(random: &mut Random, time: i64) -> Vec<u8> {
    let mut text = format!("{} ", random.pick(&STARTS)).into_bytes();
    match random.below(20) {
        0 => text.extend(b"-0.000000"),
        1..4 => write_time(time - 1, &mut text),
        _ => write_time(time, &mut text),
    }
    text.extend(format!(" {}", random.pick(&ENDS)).bytes());
    text
}
