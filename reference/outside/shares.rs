//! Tells where the time of a call goes: `shares MILLISECONDS`, where each row is measured for so long.
//!
//! Nothing in the library is taken apart for this. What a timestamp costs is what records with times for
//! data take longer than records without, and so for whole numbers; what comes after the reading is what a
//! trace takes longer than the same with a bad last line.

mod calls;
mod sample;
#[allow(dead_code, reason = "the rows are for bench")]
mod turns;

use calls::{Calls, Judge, judges};
use reference::generator::flat_table;
use reference::generator::record::{Data, Record, joined};
use reference::generator::workload::Workload;
use reference::{Asked, MAX_BYTES, MAX_RECORDS};
use std::env;
use std::iter;
use std::process::ExitCode;
use std::time::{Duration, Instant};
use turns::{LEAST_SAMPLES, Sides, median};

/// The widths of a timestamp, and the least time that has so many bytes.
const WIDTHS: [(usize, i64); 3] = [(8, 0), (12, 10_000_000_000), (16, 100_000_000_000_000)];

/// So many times are the data of a record, and so many whole numbers: three times those of its six fields.
const TIMES: usize = 16;
const NUMBERS: usize = 3 * HEAD;
const HEAD: usize = 5;

fn main() -> ExitCode {
    let time = env::args().nth(1).and_then(|first| first.parse().ok()).map(Duration::from_millis);
    let told = match time {
        Some(time) => tell_all(time),
        None => Err("usage: shares MILLISECONDS".to_string()),
    };
    match told {
        Ok(()) => ExitCode::SUCCESS,
        Err(message) => {
            println!("{message}");
            ExitCode::FAILURE
        }
    }
}

fn tell_all(time: Duration) -> Result<(), String> {
    for (width, least) in WIDTHS {
        let Sides { ours, before, .. } = measure(least, time)?;
        println!("{MAX_RECORDS} records, timestamps of {width} bytes");
        print("now", &ours);
        if let Some(before) = before {
            print("before", &before);
            let each = |parts: &[Parts]| -> Vec<f64> { parts.iter().map(|parts| parts.timestamp).collect() };
            let ratios: Vec<f64> =
                iter::zip(each(&ours), each(&before)).map(|(ours, before)| ours / before).collect();
            println!("    a timestamp, now to before: {:.2}", median(&ratios));
        }
    }
    Ok(())
}

/// What each turn tells of each library. A turn runs all traces by all libraries, so that a machine that is
/// slow for a while is slow for what is taken off and for what it is taken off from.
fn measure(least: i64, time: Duration) -> Result<Sides<Vec<Parts>>, String> {
    let traces = traces(least);
    let mut calls = traces.iter().map(Calls::of).collect::<Result<Vec<_>, _>>()?;
    let judges = judges(&traces[0]);
    let few = few(least);
    let mut told = Sides { before: judges.before.map(|_| Vec::new()), ..Sides::default() };
    let start = Instant::now();
    while told.ours.len() < LEAST_SAMPLES || start.elapsed() < time {
        let mut parts = |judge: Judge| {
            let samples: Vec<f64> = calls.iter_mut().map(|calls| calls.sample(judge)).collect();
            Parts::of(samples.try_into().expect("a sample of each trace"), few)
        };
        told.ours.push(parts(judges.ours));
        if let (Some(before), Some(judge)) = (&mut told.before, judges.before) {
            before.push(parts(judge));
        }
    }
    Ok(told)
}

/// 2,048 records without data, and the same with a bad last line; fewer records without data, with times,
/// and with whole numbers.
fn traces(least: i64) -> [Workload; 5] {
    let all: Vec<Record> = (0..MAX_RECORDS as i64).map(|place| record(place, least)).collect();
    let mut bad = lines_of(all.iter().cloned());
    bad[MAX_RECORDS - 1].push(b'x');
    let few = &all[..few(least)];
    let times = few.iter().map(|bare| with(bare, Data::Times(vec![bare.time; TIMES])));
    let numbers = few.iter().map(|bare| with(bare, Data::Wholes(five_of(bare).repeat(NUMBERS / HEAD))));
    [lines_of(all.iter().cloned()), bad, lines_of(few.iter().cloned()), lines_of(times), lines_of(numbers)]
        .map(|lines| workload(joined(&lines)))
}

/// As many records as have room with times for their data.
fn few(least: i64) -> usize {
    let longest = with(&record(0, least), Data::Times(vec![least; TIMES])).text().len() + 1;
    MAX_BYTES / longest
}

/// What a call on 2,048 records is made of, in microseconds, and one timestamp in nanoseconds.
struct Parts {
    timestamp: f64,
    timestamps: f64,
    numbers: f64,
    other_reading: f64,
    after: f64,
    whole: f64,
}

impl Parts {
    /// By the times of the five traces.
    fn of([whole, reading, bare, with_times, with_numbers]: [f64; 5], few: usize) -> Parts {
        let one_of = |with: f64, many: usize| (with - bare) / (few * many) as f64;
        let records = MAX_RECORDS as f64;
        let timestamps = records * one_of(with_times, TIMES);
        let numbers = records * HEAD as f64 * one_of(with_numbers, NUMBERS);
        Parts {
            timestamp: timestamps / records * 1e3,
            timestamps,
            numbers,
            other_reading: reading - timestamps - numbers,
            after: whole - reading,
            whole,
        }
    }
}

/// One of the parts.
type Part = fn(&Parts) -> f64;

fn print(name: &str, turns: &[Parts]) {
    let part = |of: Part| median(&turns.iter().map(of).collect::<Vec<_>>());
    let whole = part(|parts| parts.whole);
    println!("    {name:<8}{whole:>7.1} us, one timestamp {:.1} ns", part(|parts| parts.timestamp));
    let shares: [(&str, Part); 4] = [
        ("timestamps", |parts| parts.timestamps),
        ("the other five fields", |parts| parts.numbers),
        ("the rest of the reading", |parts| parts.other_reading),
        ("after the reading", |parts| parts.after),
    ];
    for (name, of) in shares {
        println!("        {name:<28}{:>7.1} us{:>5.0} %", part(of), 100.0 * part(of) / whole);
    }
}

/// A record of the user, as programs make them.
fn record(place: i64, least: i64) -> Record {
    Record::local(-3 - place % 2, place % 10, least + 100 * place, place % 10)
}

fn with(bare: &Record, data: Data) -> Record {
    Record { data, ..bare.clone() }
}

/// The whole numbers among a record's six fields.
fn five_of(record: &Record) -> [i64; HEAD] {
    [record.record_type, record.event, record.processor, 0, 0]
}

fn lines_of(records: impl Iterator<Item = Record>) -> Vec<Vec<u8>> {
    records.map(|record| record.text()).collect()
}

fn workload(trace: Vec<u8>) -> Workload {
    let asked = Asked::choice_alone(2);
    Workload { name: "shares", asked, trace, latencies: flat_table(0), wanted: false }
}
