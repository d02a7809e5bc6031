//! Measures the library beside the reference, and the two programs:
//! `bench MILLISECONDS [PROGRAM [BEFORE]]`, where each row is measured for so long and PROGRAM is
//! Cantuvesh's own. An older library, linked by the feature `before`, and BEFORE, an older program, are
//! measured in the same turns.

mod calls;
mod lister;
mod lists;
mod merger;
mod merges;
mod programs;
mod sample;
mod turns;

use calls::{Calls, Judge, archive, judges};
use lists::{Lister, Lists, Wish, listers};
use merges::{Merge, Merges, mergers};
use reference::Answer;
use reference::generator::workload::{self, Nodes, Workload};
use std::convert::Infallible;
use std::env;
use std::path::Path;
use std::process::ExitCode;
use std::time::Duration;
use turns::Row;

fn main() -> ExitCode {
    match measure_all() {
        Ok(()) => ExitCode::SUCCESS,
        Err(message) => {
            println!("{message}");
            ExitCode::FAILURE
        }
    }
}

fn measure_all() -> Result<(), String> {
    let arguments: Vec<_> = env::args_os().skip(1).collect();
    let milliseconds = arguments.first().and_then(|first| first.to_str()?.parse().ok());
    let time =
        milliseconds.map(Duration::from_millis).ok_or("usage: bench MILLISECONDS [PROGRAM [BEFORE]]")?;

    turns::print_heads();
    let mut rows = Vec::new();
    for workload in workload::all() {
        rows.push(measure(&workload, time)?);
    }
    for nodes in workload::merged() {
        rows.push(measure_merging(&nodes, time)?);
    }
    for (workload, wish) in workload::lists().iter().zip([Wish::Messages, Wish::ChainOfLast]) {
        rows.push(measure_list(workload, wish, time)?);
    }
    if let Some(program) = arguments.get(1) {
        let before = arguments.get(2).map(Path::new);
        let measured = programs::measure(Path::new(program), before, time);
        rows.extend(measured.map_err(|error| format!("the programs cannot be run: {error}"))?);
    }
    turns::print_largest(&rows);
    Ok(())
}

fn measure(workload: &Workload, time: Duration) -> Result<Row, String> {
    let mut calls = Calls::of(workload)?;
    let sample = |&judge: &Judge| -> Result<f64, Infallible> { Ok(calls.sample(judge)) };
    let Ok(row) = Row::measured(workload.name, &judges(workload), time, sample);
    row.print();
    println!("    {}", described(workload, &calls.expected));
    Ok(row)
}

fn described(workload: &Workload, answer: &Answer) -> String {
    let bytes = workload.trace.len();
    let Answer { number, line, column, listed, passed, matched, rounds, .. } = answer;
    match number {
        0 => format!("{bytes} bytes, listed {listed}, passed {passed}, matched {matched}, rounds {rounds}"),
        _ => format!("{bytes} bytes, refused {number} line {line} column {column}"),
    }
}

fn measure_merging(nodes: &Nodes, time: Duration) -> Result<Row, String> {
    let mut merges = Merges::of(nodes)?;
    let sample = |&merge: &Merge| -> Result<f64, Infallible> { Ok(merges.sample(merge)) };
    let Ok(row) = Row::measured(nodes.name, &mergers(), time, sample);
    row.print();
    println!(
        "    {} and {} bytes, written {}",
        nodes.first.len(),
        nodes.second.len(),
        merges.expected.written
    );
    Ok(row)
}

fn measure_list(workload: &Workload, wish: Wish, time: Duration) -> Result<Row, String> {
    let mut lists = Lists::of(workload, wish)?;
    let sample = |&lister: &Lister| -> Result<f64, Infallible> { Ok(lists.sample(lister)) };
    let Ok(row) = Row::measured(workload.name, &listers(), time, sample);
    row.print();
    println!("    {} bytes, filled {}", workload.trace.len(), lists.expected.filled);
    Ok(row)
}
