//! The program: `cantuvesh-reference CHOICE TRACE TABLE [WRITTEN]`.
//!
//! No tracing levels are expected, no statistics compared and no gaps kept: they are off, and the share is 0.
//! Prints the report, or "cannot read". A file named for the written trace is made only where the trace is
//! accepted.

#![forbid(unsafe_code)]

use reference::refusal::{ASKED, SIZE};
use reference::report::{CANNOT_READ, report};
use reference::{Answer, Asked, Inputs, LATENCIES, MAX_BYTES, MAX_RECORDS, judge};
use std::env;
use std::ffi::OsString;
use std::fs;
use std::process::ExitCode;

fn main() -> ExitCode {
    let mut arguments = env::args_os().skip(1);
    let choice = match arguments.next().as_ref().map(|first| first.as_encoded_bytes()) {
        Some(b"1") => 1,
        Some(b"2") => 2,
        _ => {
            print!("{}", refused(ASKED));
            return ExitCode::SUCCESS;
        }
    };
    let (Some(trace), Some(table)) = (contents(arguments.next()), contents(arguments.next())) else {
        print!("{CANNOT_READ}");
        return ExitCode::SUCCESS;
    };
    if table.len() != 4 * LATENCIES {
        print!("{}", refused(SIZE));
        return ExitCode::SUCCESS;
    }
    let latencies: Vec<u32> = table
        .chunks_exact(4)
        .map(|bytes| u32::from_le_bytes([bytes[0], bytes[1], bytes[2], bytes[3]]))
        .collect();

    let name = arguments.next();
    let mut times = vec![0; MAX_RECORDS];
    let mut room = vec![0; MAX_BYTES];
    let answer = judge(Inputs {
        trace: &trace,
        latencies: &latencies,
        asked: Asked::choice_alone(choice),
        times: &mut times,
        wanted: name.is_some(),
        room: &mut room,
    });
    print!("{}", report(&answer));
    if let Some(name) = name
        && answer.number == 0
        && fs::write(name, &room[..answer.written as usize]).is_err()
    {
        eprintln!("cannot write");
        return ExitCode::FAILURE;
    }
    ExitCode::SUCCESS
}

fn contents(name: Option<OsString>) -> Option<Vec<u8>> {
    fs::read(name?).ok()
}

fn refused(number: u64) -> String {
    report(&Answer { number, ..Answer::default() })
}
