//! Lines put together field by field from good, awkward and bad ones, and plain noise.

use super::random::Random;
use super::record::{MESSAGE_EVENTS, RECEIVES, SENDS, good_lines_behind, joined};
use super::{Draft, flat_table, table};

const RECORD_TYPES: [&str; 4] = ["-2", "-3", "-4", "0"];
/// Their data are others.
const STATISTICS: [&str; 3] = ["-101", "-102", "-103"];
const UNLISTED_TYPES: [&str; 10] =
    ["-5", "-1", "1", "2", "-100", "-104", "10", "-999999999", "999999999", "-20"];

/// The two sides of every border in the table of events.
const EVENTS: [i64; 82] = [
    999_999_999, 1, 0, -1, -10, -11, -12, -13, -20, -21, -22, -23, -26, -27, -28, -29, -30, -31, -32, -49,
    -50, -51, -52, -53, -54, -56, -57, -58, -59, -60, -61, -62, -79, -80, -81, -82, -200, -201, -202, -203,
    -220, -221, -222, -250, -251, -252, -400, -401, -402, -403, -500, -501, -502, -503, -504, -600, -601,
    -602, -603, -604, -900, -901, -902, -903, -904, -905, -910, -911, -912, -913, -914, -915, -1000, -1001,
    -999_999_999, -21, -21, -51, -52, -52, 5, 42,
];

const BAD_WHOLES: [&str; 17] = [
    "",
    "-",
    "-0",
    "00",
    "01",
    "-01",
    "+1",
    "1000000000",
    "-1000000000",
    "0999999999",
    "1.0",
    "x",
    "1x",
    "--1",
    "1-",
    "\t1",
    "99999999999999999999",
];

const TIMES: [&str; 12] = [
    "0.000000", "0.000001", "-0.000001", "999999999.999999", "-999999999.999999", "1.000000", "10.000000",
    "-1.000000", "123456789.123456", "0.999999", "-100000000.000000", "0.100000",
];

const BAD_TIMES: [&str; 24] = [
    "-0.000000", "00.000000", "01.000000", "0.00000", "0.0000000", ".000000", "-.000001",
    "1000000000.000000", "-1000000000.000000", "1", "1.", "", "-", "+1.000000", "--1.000000", "1,000000",
    "1.00000x", "x.000000", "1.-00001", "1.0000.0", "-00.000001", "1e5.000000", "0000000000.000000",
    "1:000000",
];

/// A few lines. Most are good, so that the later ones are read too, and often some are that stand behind.
pub fn lines(random: &mut Random) -> Draft {
    let latencies = if random.chance(90) { flat_table(0) } else { table(random) };
    let count = random.pick(&[1, 1, 1, 2, 3, 6, 12]);
    // Now and then only one thing is wrong with each line, now and then much.
    let wrong = random.pick(&[1, 1, 3, 8]);
    let mut clock = random.between(-5, 5);
    let mut lines: Vec<Vec<u8>> = (0..count).map(|_| line(random, wrong, &mut clock)).collect();
    if random.chance(50) {
        lines.extend(good_lines_behind(random));
    }
    let mut trace = joined(&lines);
    if random.chance(3) {
        trace.pop();
    }
    Draft { kind: "soup", trace, latencies }
}

fn line(random: &mut Random, wrong: u64, clock: &mut i64) -> Vec<u8> {
    let record_type = match random.below(20) {
        0 | 1 => random.pick(&UNLISTED_TYPES),
        2 => random.pick(&STATISTICS),
        _ => random.pick(&RECORD_TYPES),
    };
    let event = match random.below(10) {
        0 => random.between(-1010, -1),
        1 => random.between(-90, -1),
        2..5 => random.pick(&EVENTS),
        5 => random.pick(&SENDS),
        6 => random.pick(&RECEIVES),
        _ => random.between(0, 99),
    };
    *clock += random.between(0, 3);
    let mut fields = vec![
        whole(random, wrong, record_type.to_string()),
        whole(random, wrong, event.to_string()),
        stamp(random, wrong, *clock),
    ];
    let processor = match random.chance(2 * wrong) {
        true => random.pick(&[64, 65, -1, 128, 32_767, 999_999_999, -64, 4_294_967]),
        false => random.pick(&[0, 0, 0, 1, 2, 3, 62, 63]),
    };
    fields.push(whole(random, wrong, processor.to_string()));
    let process = if random.chance(2 * wrong) { random.pick(&[1, -1, 999_999_999, 2]) } else { 0 };
    fields.push(whole(random, wrong, process.to_string()));
    fields.extend(data(random, wrong, MESSAGE_EVENTS.contains(&event)));

    if random.chance(wrong) {
        let place = random.place(fields.len());
        match random.below(3) {
            0 => drop(fields.remove(place)),
            1 => fields.insert(place, String::new()),
            _ => fields.truncate(place),
        }
    }
    let mut text = fields.join(" ").into_bytes();
    if random.chance(wrong) {
        let end: &[u8] = random.pick(&[&b" "[..], b"  ", b"\r", b" \r", b" x", b" 2", b" 2 5", b"\t", b"\0"]);
        text.extend(end);
    }
    text
}

fn whole(random: &mut Random, wrong: u64, good: String) -> String {
    if random.chance(wrong) { random.pick(&BAD_WHOLES).to_string() } else { good }
}

fn stamp(random: &mut Random, wrong: u64, clock: i64) -> String {
    if random.chance(2 * wrong) {
        return random.pick(&BAD_TIMES).to_string();
    }
    match random.chance(15) {
        true => random.pick(&TIMES).to_string(),
        false => micros(clock),
    }
}

/// Small times only: what the reference's own writer would say is not asked.
fn micros(time: i64) -> String {
    let sign = if time < 0 { "-" } else { "" };
    format!("{sign}0.{:06}", time.abs())
}

/// The data count, and what follows it: mostly what a message has where the event is one of messages.
fn data(random: &mut Random, wrong: u64, message: bool) -> Vec<String> {
    let mut count = match random.below(10) {
        0..8 if message => 3,
        8 if message => random.pick(&[1, 2, 4, 4]),
        0..5 => 0,
        5..9 => random.between(1, 4),
        _ => random.pick(&[15, 16]),
    };
    let stated = match random.chance(2 * wrong) {
        true => random.pick(&[0, 1, 2, 3, 4, 15, 16, 17, 18, 256, 998, 999, 1000, 1001, -1, 999_999_999]),
        false => count,
    };
    if (17..20).contains(&stated) && random.chance(50) {
        count = stated;
    }
    let mut fields = vec![whole(random, wrong, stated.to_string())];
    if count == 0 {
        return fields;
    }
    let descriptor = match random.chance(2 * wrong) {
        true => {
            random.pick(&["0", "1", "3", "4", "6", "02", "-2", "", "\"%d\"", "\"%d%d\"", "2.0", "25", "52"])
        }
        false if random.chance(if message { 95 } else { 60 }) => "2",
        false => "5",
    };
    fields.push(descriptor.to_string());
    for place in 0..count {
        let whole_datum = (descriptor != "5") != random.chance(wrong);
        fields.push(match (whole_datum, place) {
            (true, 0) if message => {
                let length = if random.chance(wrong) { "-1" } else { random.pick(&["8", "8", "8", "0"]) };
                whole(random, wrong, length.to_string())
            }
            (true, 2) if message => {
                let partner = match random.chance(2 * wrong) {
                    true => random.pick(&["64", "-1", "999999999", "-64", "128"]),
                    false => random.pick(&["0", "0", "0", "1", "2", "3", "63"]),
                };
                whole(random, wrong, partner.to_string())
            }
            (true, _) => {
                let datum = random.pick(&["1", "1", "1", "0", "-1", "999999999", "-999999999"]);
                whole(random, wrong, datum.to_string())
            }
            (false, _) if random.chance(2 * wrong) => random.pick(&BAD_TIMES).to_string(),
            (false, _) => random.pick(&TIMES).to_string(),
        });
    }
    fields
}

/// Bytes with no sense, most of them such as occur in a trace.
pub fn noise(random: &mut Random) -> Draft {
    let length = random.pick(&[0, 1, 2, 20, 200, 2_000]);
    let any_byte = random.chance(20);
    let trace = (0..random.below(length + 1))
        .map(|_| if any_byte { random.below(256) as u8 } else { random.pick(b"0123-. \n") })
        .collect();
    Draft { kind: "noise", trace, latencies: table(random) }
}
