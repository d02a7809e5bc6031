//! Holds the library against the reference: `compare [CASES [SEED]]` on so many cases, on a quarter as many
//! pairs of traces to merge, and on as many traces whose messages and chains are asked for; `compare --pairs
//! [PAIRS [SEED]]` on pairs alone, `compare --lists [TRACES [SEED]]` on such traces alone.
//!
//! Case i has the seed SEED + i, and so have pair i and trace i: `compare 1 N` runs the case of seed N again,
//! `compare --pairs 1 N` the pair, and `compare --lists 1 N` the trace.

mod archive;
mod cases;
mod held;
mod inquiries;
mod lister;
mod merger;
mod pairs;

use std::env;
use std::process::ExitCode;

fn main() -> ExitCode {
    let Some(Asked { cases, pairs, inquiries, seed }) = Asked::of(env::args().skip(1).collect()) else {
        eprintln!(
            "usage: compare [CASES [SEED]]\n       compare --pairs [PAIRS [SEED]]\n       \
             compare --lists [TRACES [SEED]]"
        );
        return ExitCode::from(2);
    };
    let mut failed = 0;
    if cases > 0 {
        failed += cases::hold(cases, seed);
    }
    if pairs > 0 {
        failed += pairs::hold(pairs, seed);
    }
    if inquiries > 0 {
        failed += inquiries::hold(inquiries, seed);
    }
    println!("{} passed, {failed} failed", (cases + pairs + inquiries).saturating_sub(failed));
    if failed == 0 { ExitCode::SUCCESS } else { ExitCode::FAILURE }
}

/// How many of each, and from which seed on.
struct Asked {
    cases: u64,
    pairs: u64,
    inquiries: u64,
    seed: u64,
}

impl Asked {
    fn of(arguments: Vec<String>) -> Option<Asked> {
        let (alone, numbers) = match arguments.split_first() {
            Some((first, numbers)) if first.starts_with("--") => (Some(first.as_str()), numbers),
            _ => (None, &arguments[..]),
        };
        let numbers: Result<Vec<u64>, _> = numbers.iter().map(|argument| argument.parse()).collect();
        let (many, seed) = match numbers.ok()?[..] {
            [] => (None, 0),
            [many] => (Some(many), 0),
            [many, seed] => (Some(many), seed),
            _ => return None,
        };
        let none = Asked { cases: 0, pairs: 0, inquiries: 0, seed };
        match alone {
            Some("--pairs") => Some(Asked { pairs: many.unwrap_or(pairs::PAIRS), ..none }),
            Some("--lists") => Some(Asked { inquiries: many.unwrap_or(inquiries::INQUIRIES), ..none }),
            Some(_) => None,
            None => {
                let cases = many.unwrap_or(cases::CASES);
                let pairs = cases * pairs::PAIRS / cases::CASES;
                let inquiries = cases * inquiries::INQUIRIES / cases::CASES;
                Some(Asked { cases, pairs, inquiries, seed })
            }
        }
    }
}
