//! Cases of one trace each, which both judge.

use crate::archive;
use crate::held::{self, Failure};
use reference::generator::Case;
use reference::trial::{Call, Tally, difference};
use reference::{Answer, judge};

/// So many are enough to say what comes up too seldom.
pub const CASES: u64 = 200_000;

/// Judges so many cases, and tells how many fail.
pub fn hold(cases: u64, seed: u64) -> u64 {
    let (mut ours, mut theirs) = (Call::default(), Call::default());
    let mut tally = Tally::default();
    let failed = held::hold("cases", seed..seed + cases, |seed| {
        let case = Case::from_seed(seed);
        let expected = ours.run(&case, judge);
        let given = theirs.run(&case, archive::judge);
        tally.count(&case, &expected);
        let difference = difference((&expected, &ours), (&given, &theirs))?;
        Some(failure(&case, difference, &expected))
    });
    print!("{tally}");
    failed + if cases < CASES { 0 } else { held::tell(tally.too_seldom()) }
}

/// The trace and the table as the program takes them, for the gate's list too, and the call in words.
fn failure(case: &Case, difference: String, expected: &Answer) -> Failure {
    let Case { seed, kind, ref trace, ref latencies, asked, times, wanted, room, offset } = *case;
    let call = format!(
        "seed {seed}\nasked {asked:?}\nlatencies {}\ntimes {times}\nwanted {wanted}\nroom {room}\n\
         offset {offset}\nexpected {expected:?}\n{difference}\n",
        latencies.len()
    );
    let table = latencies.iter().flat_map(|latency| latency.to_le_bytes()).collect();
    Failure {
        what: format!("seed {seed} ({kind})"),
        difference,
        name: seed.to_string(),
        files: vec![("trace", trace.clone()), ("table", table), ("call", call.into_bytes())],
        again: format!("1 {seed}"),
    }
}
