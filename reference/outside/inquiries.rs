//! Traces whose messages and chains both list.

use crate::held::{self, Failure};
use crate::lister;
use reference::generator::inquiry::Inquiry;
use reference::list_trial::{Expected, Tally, Trial};

/// So many are enough to say what comes up too seldom.
pub const INQUIRIES: u64 = 50_000;

/// Lists what so many inquiries ask for, and tells how many fail.
pub fn hold(inquiries: u64, seed: u64) -> u64 {
    let mut trial = Trial::default();
    let mut tally = Tally::default();
    let failed = held::hold("traces with lists", seed..seed + inquiries, |seed| {
        let inquiry = Inquiry::from_seed(seed);
        let (expected, difference) = trial.run(&inquiry, lister::messages, lister::chain);
        tally.count(&inquiry, &expected);
        Some(failure(&inquiry, difference?, &expected))
    });
    print!("{tally}");
    failed + if inquiries < INQUIRIES { 0 } else { held::tell(tally.too_seldom()) }
}

/// The trace and the table as the programs take them, and the calls in words.
fn failure(inquiry: &Inquiry, difference: String, expected: &Expected) -> Failure {
    let Inquiry { seed, kind, ref trace, ref latencies, asked, messages, ref chains, offset } = *inquiry;
    let call = format!(
        "seed {seed}\nasked {asked:?}\nlatencies {}\nmessages {messages}\nchains {chains:?}\n\
         offset {offset}\nexpected {expected:?}\n{difference}\n",
        latencies.len()
    );
    let table = latencies.iter().flat_map(|latency| latency.to_le_bytes()).collect();
    Failure {
        what: format!("lists of {seed} ({kind})"),
        difference,
        name: format!("lists{seed}"),
        files: vec![("trace", trace.clone()), ("table", table), ("call", call.into_bytes())],
        again: format!("--lists 1 {seed}"),
    }
}
