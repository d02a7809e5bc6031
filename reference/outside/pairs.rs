//! Pairs of traces, which both merge.

use crate::held::{self, Failure};
use crate::merger;
use reference::generator::pair::Pair;
use reference::merge::{Merged, merge};
use reference::merge_trial::{Call, Tally, difference};

/// So many are enough to say what comes up too seldom.
pub const PAIRS: u64 = 50_000;

/// Merges so many pairs, and tells how many fail.
pub fn hold(pairs: u64, seed: u64) -> u64 {
    let (mut ours, mut theirs) = (Call::default(), Call::default());
    let mut tally = Tally::default();
    let failed = held::hold("pairs", seed..seed + pairs, |seed| {
        let pair = Pair::from_seed(seed);
        let expected = ours.run(&pair, merge);
        let given = theirs.run(&pair, merger::merge);
        tally.count(&pair, &expected);
        let difference = difference((&expected, &ours), (&given, &theirs))?;
        Some(failure(&pair, difference, &expected))
    });
    print!("{tally}");
    failed + if pairs < PAIRS { 0 } else { held::tell(tally.too_seldom()) }
}

/// The two traces, and the call in words.
fn failure(pair: &Pair, difference: String, expected: &Merged) -> Failure {
    let Pair { seed, kind, ref first, ref second, choice, room, offset } = *pair;
    let call = format!(
        "seed {seed}\nchoice {choice}\nroom {room}\noffset {offset}\nexpected {expected:?}\n{difference}\n"
    );
    Failure {
        what: format!("pair {seed} ({kind})"),
        difference,
        name: format!("pair{seed}"),
        files: vec![("first", first.clone()), ("second", second.clone()), ("call", call.into_bytes())],
        again: format!("--pairs 1 {seed}"),
    }
}
