//! The programs measured beside each other.

use crate::turns::{Row, Sides};
use reference::MAX_BYTES;
use reference::generator::workload;
use std::env;
use std::fs;
use std::io;
use std::path::{Path, PathBuf};
use std::process::{Command, Stdio};
use std::time::{Duration, Instant};

/// Start-up is a run without arguments, which is refusal 1; the whole run reads a trace at the limit
/// and writes it.
pub fn measure(ours: &Path, before: Option<&Path>, time: Duration) -> io::Result<[Row; 2]> {
    let programs = Sides {
        ours: fs::canonicalize(ours)?,
        before: before.map(fs::canonicalize).transpose()?,
        reference: env::current_exe()?.with_file_name("cantuvesh-reference"),
    };
    let folder = env::temp_dir().join(format!("cantuvesh-bench-{}", std::process::id()));
    fs::create_dir_all(&folder)?;
    let measured = measure_in(&folder, &programs, time);
    fs::remove_dir_all(&folder)?;
    measured
}

fn measure_in(folder: &Path, programs: &Sides<PathBuf>, time: Duration) -> io::Result<[Row; 2]> {
    let words = whole_run(folder)?;
    let expected = outcome(&programs.reference, &words)?;
    for (side, program) in programs.held_to_it() {
        if outcome(program, &words)? != expected {
            return Err(io::Error::other(format!("{side} and reference report or write differently")));
        }
    }
    let row = |name, words: &[PathBuf]| -> io::Result<Row> {
        let row = Row::measured(name, programs, time, |program| timed(program, words))?;
        row.print();
        Ok(row)
    };
    Ok([row("the program's start-up", &[])?, row("its whole run, a trace at the limit", &words)?])
}

/// The arguments of a whole run, whose files are made here. The last is the file that it writes.
fn whole_run(folder: &Path) -> io::Result<Vec<PathBuf>> {
    let workloads = workload::all();
    let workload = workloads.iter().find(|workload| workload.wanted).ok_or(io::ErrorKind::NotFound)?;
    let mut trace = workload.trace.clone();
    fill_with_a_passed_line(&mut trace);
    let table: Vec<u8> = workload.latencies.iter().flat_map(|latency| latency.to_le_bytes()).collect();
    let [trace_name, table_name, written] = ["trace", "table", "written"].map(|name| folder.join(name));
    fs::write(&trace_name, trace)?;
    fs::write(&table_name, table)?;
    Ok(vec!["2".into(), trace_name, table_name, written])
}

/// One more line, so that the trace has 65,536 bytes.
fn fill_with_a_passed_line(trace: &mut Vec<u8>) {
    trace.extend(b"-111 -1 0.000000 0 0 1 ");
    trace.resize(MAX_BYTES - 1, b'x');
    trace.push(b'\n');
}

/// What a program says and what it writes.
fn outcome(program: &Path, words: &[PathBuf]) -> io::Result<(Vec<u8>, Vec<u8>)> {
    let said = Command::new(program).args(words).stdin(Stdio::null()).output()?.stdout;
    let written = fs::read(&words[3])?;
    fs::remove_file(&words[3])?;
    Ok((said, written))
}

/// The microseconds of one run.
fn timed(program: &Path, words: &[PathBuf]) -> io::Result<f64> {
    let mut command = Command::new(program);
    command.args(words).stdin(Stdio::null()).stdout(Stdio::null());
    let start = Instant::now();
    command.status()?;
    let taken = start.elapsed();
    // A file written over may wait for the disk: each run writes a new one.
    if let Some(written) = words.get(3) {
        fs::remove_file(written)?;
    }
    Ok(taken.as_secs_f64() * 1e6)
}
