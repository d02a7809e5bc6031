//! The comparison tried on chains: who takes another chain, or refuses otherwise, must be found out.

mod common;

use common::{chains_are_found as found, lister_passes, messages_are_found};
use reference::chain::{IN_ORDER, Moved, Step};
use reference::clock::Floor;
use reference::line::Role;
use reference::list::{self, Ends, Filled};
use reference::refusal::{NO_RECORD, NO_TIMES, ROOM, Refusal};
use reference::{LATENCIES, MAX_RECORDS, PROCESSORS, Question, Solved, solve};
use std::cmp::Reverse;

const SEND_FIRST: [Step; 2] = [Step::Send, Step::Processor];

/// An accepted trace, as who goes wrong sees it.
struct Seen<'a> {
    solved: &'a Solved,
    latencies: &'a [u32],
    moved: Moved,
}

/// The chain of a record by another rule; none where the rule finds none, and then it is right.
type Rule = fn(&Seen, usize) -> Option<Vec<usize>>;

/// Lists another chain, but refuses as it is right.
fn by(rule: impl Fn(&Seen, usize) -> Option<Vec<usize>>) -> impl Fn(Question, u64, &mut [u64]) -> Filled {
    move |question, place, list| {
        let solved = match solve(question, MAX_RECORDS) {
            Ok(solved) if place < solved.records.len() as u64 => solved,
            _ => return list::chain(question, place, list),
        };
        let moved = Moved::of(&solved);
        let seen = Seen { solved: &solved, latencies: question.latencies, moved };
        let Some(chain) = rule(&seen, place as usize) else { return list::chain(question, place, list) };
        match list.get_mut(..chain.len()) {
            Some(start) => {
                start.iter_mut().zip(&chain).for_each(|(link, &place)| *link = place as u64);
                Filled { filled: chain.len() as u64, ..Filled::default() }
            }
            None => Filled { number: ROOM, ..Filled::default() },
        }
    }
}

/// The right chain.
fn right(seen: &Seen, asked: usize) -> Option<Vec<usize>> {
    seen.moved.nearest(asked, IN_ORDER)
}

/// Takes the first of these steps that there is, and never tries another.
fn greedy(seen: &Seen, asked: usize, order: [Step; 2]) -> Option<Vec<usize>> {
    let mut chain = vec![asked];
    let mut here = asked;
    while !seen.moved.is_at_original(here) {
        let tight = order.into_iter().filter_map(|step| seen.moved.tight(here, step));
        here = tight.into_iter().find(|cause| !chain.contains(cause))?;
        chain.push(here);
    }
    Some(chain)
}

/// The chain, and on from its end as long as something holds the record there.
fn past_the_end(seen: &Seen, asked: usize) -> Option<Vec<usize>> {
    let mut chain = right(seen, asked)?;
    loop {
        let here = chain[chain.len() - 1];
        let causes = IN_ORDER.into_iter().filter_map(|step| seen.moved.tight(here, step));
        match causes.into_iter().find(|cause| !chain.contains(cause)) {
            Some(cause) => chain.push(cause),
            None => return Some(chain),
        }
    }
}

/// A chain with its steps.
type Way = (Vec<usize>, Vec<Step>);

/// All chains of a record over so few steps that there are not too many of them.
fn all_chains(seen: &Seen, asked: usize) -> Vec<Way> {
    let mut ways: Vec<Way> = vec![(vec![asked], Vec::new())];
    let mut chains = Vec::new();
    while let Some((places, steps)) = ways.pop() {
        let here = places[places.len() - 1];
        if seen.moved.is_at_original(here) {
            chains.push((places, steps));
            continue;
        }
        for step in IN_ORDER.into_iter().filter(|_| steps.len() < 8) {
            let cause = seen.moved.tight(here, step);
            if let Some(cause) = cause.filter(|cause| !places.contains(cause)) {
                ways.push(([&places[..], &[cause]].concat(), [&steps[..], &[step]].concat()));
            }
        }
    }
    chains
}

/// The first of them by something.
fn first_by<K: Ord>(seen: &Seen, asked: usize, rank: fn(&Seen, &Way) -> K) -> Option<Vec<usize>> {
    let chains = all_chains(seen, asked);
    chains.into_iter().min_by_key(|way| rank(seen, way)).map(|(places, _)| places)
}

/// The same records, with waits that are looked at otherwise.
fn nearest_with(seen: &Seen, asked: usize, floor: impl Fn(usize, &Floor) -> Floor) -> Option<Vec<usize>> {
    let floors = seen.moved.floors.iter().enumerate().map(|(place, own)| floor(place, own)).collect();
    Moved { floors, times: seen.moved.times.clone() }.nearest(asked, IN_ORDER)
}

#[test]
fn the_right_rule_passes() {
    assert!(lister_passes(list::messages, by(right)));
    assert!(lister_passes(
        list::messages,
        by(|seen, asked| first_by(seen, asked, |_, (places, steps)| (places.len(), steps.clone())))
    ));
}

#[test]
fn other_chains_are_found() {
    let wrong: [(&str, Rule); 11] = [
        ("the processor's step where there is one", |seen, asked| greedy(seen, asked, IN_ORDER)),
        ("the send's step where there is one", |seen, asked| greedy(seen, asked, SEND_FIRST)),
        ("the send's step in a tie", |seen, asked| seen.moved.nearest(asked, SEND_FIRST)),
        ("on past an unmoved record", past_the_end),
        ("the most steps", |seen, asked| first_by(seen, asked, |_, (places, _)| Reverse(places.len()))),
        ("the processor's steps first, however many", |seen, asked| {
            first_by(seen, asked, |_, (_, steps)| steps.clone())
        }),
        ("ties from the far end", |seen, asked| {
            first_by(seen, asked, |_, (places, steps)| {
                (places.len(), steps.iter().rev().copied().collect::<Vec<_>>())
            })
        }),
        ("the fewest messages", |seen, asked| {
            first_by(seen, asked, |_, (_, steps)| {
                let messages = steps.iter().filter(|step| **step == Step::Send).count();
                (messages, steps.len(), steps.clone())
            })
        }),
        ("smaller places in a tie", |seen, asked| {
            first_by(seen, asked, |_, (places, _)| (places.len(), places.clone()))
        }),
        ("the earliest end in a tie", |seen, asked| {
            first_by(seen, asked, |seen, (places, steps)| {
                (places.len(), seen.moved.times[places[places.len() - 1]], steps.clone())
            })
        }),
        ("the last end in a tie", |seen, asked| {
            first_by(seen, asked, |_, (places, _)| (places.len(), Reverse(places[places.len() - 1])))
        }),
    ];
    for (name, rule) in wrong {
        assert!(found(by(rule)), "{name}");
    }
}

#[test]
fn other_steps_are_found() {
    let wrong: [(&str, Rule); 8] = [
        ("whatever is before it on its processor", |seen, asked| {
            let mut chain = vec![asked];
            while !seen.moved.is_at_original(chain[chain.len() - 1]) {
                let here = chain[chain.len() - 1];
                let before = seen.moved.step(here, Step::Processor).map(|(before, _)| before);
                let cause = before.or(seen.moved.tight(here, Step::Send))?;
                chain.push(cause);
            }
            Some(chain)
        }),
        ("its send, whenever that was", |seen, asked| {
            let send = seen.moved.floors[asked].send.filter(|_| !seen.moved.is_at_original(asked))?;
            Some([&[asked][..], &seen.moved.nearest(send.0, IN_ORDER)?].concat())
        }),
        ("no latency", |seen, asked| {
            nearest_with(seen, asked, |_, own| Floor { send: own.send.map(|(send, _)| (send, 0)), ..*own })
        }),
        ("the latency of the way back", |seen, asked| {
            let records = &seen.solved.records;
            nearest_with(seen, asked, |place, own| {
                let back = |send: usize| PROCESSORS * records[place].processor + records[send].processor;
                let send = own.send.map(|(send, _)| (send, i64::from(seen.latencies[back(send)])));
                Floor { send, ..*own }
            })
        }),
        ("sends before their receives", |seen, asked| {
            nearest_with(seen, asked, |place, own| Floor {
                send: own.send.filter(|(send, _)| *send < place),
                ..*own
            })
        }),
        ("the record before in the file", |seen, asked| {
            nearest_with(seen, asked, |place, own| Floor {
                before: place.checked_sub(1).map(|before| (before, 0)),
                ..*own
            })
        }),
        ("up to the first send", |seen, asked| {
            let mut chain = right(seen, asked)?;
            let send = |place: &usize| matches!(seen.solved.records[*place].role, Role::Send(_));
            let end = chain.iter().position(send)?;
            chain.truncate(end + 1);
            Some(chain)
        }),
        ("up to a record that has not moved further", |seen, asked| {
            let shift = |place: usize| seen.moved.times[place] - seen.moved.floors[place].original;
            let mut chain = right(seen, asked)?;
            let end = chain.iter().position(|&place| shift(place) < shift(asked))?;
            chain.truncate(end + 1);
            Some(chain)
        }),
    ];
    for (name, rule) in wrong {
        assert!(found(by(rule)), "{name}");
    }
}

/// What is waited over a gap by another rule, of what is kept and of the whole; none if no step goes there.
type Kept = fn(i64, i64) -> Option<i64>;

#[test]
fn other_gaps_are_found() {
    let by_gaps = |waited: Kept| {
        by(move |seen, asked| {
            nearest_with(seen, asked, |_, own| {
                let before = own.before.and_then(|(before, kept)| {
                    let whole = own.original - seen.moved.floors[before].original;
                    Some((before, waited(kept, whole)?))
                });
                Floor { before, ..*own }
            })
        })
    };
    assert!(lister_passes(list::messages, by_gaps(|kept, _| Some(kept))));
    let wrong: [(&str, Kept); 4] = [
        ("the same time alone", |_, _| Some(0)),
        ("never over a gap", |kept, _| (kept == 0).then_some(0)),
        ("the whole gap", |_, whole| Some(whole)),
        ("never over a whole gap", |kept, whole| (kept < whole || kept == 0).then_some(kept)),
    ];
    for (name, waited) in wrong {
        assert!(found(by_gaps(waited)), "{name}");
    }
}

#[test]
fn other_ends_and_places_are_found() {
    let wrong: [(&str, Rule); 8] = [
        ("without the asked record", |seen, asked| right(seen, asked).map(|chain| chain[1..].to_vec())),
        ("without its end", |seen, asked| right(seen, asked).map(|chain| chain[..chain.len() - 1].to_vec())),
        ("without both", |seen, asked| {
            let chain = right(seen, asked)?;
            (chain.len() > 1).then(|| chain[1..chain.len() - 1].to_vec())
        }),
        ("an unmoved record has none", |seen, asked| seen.moved.is_at_original(asked).then(Vec::new)),
        ("an unmoved record twice", |seen, asked| {
            seen.moved.is_at_original(asked).then(|| vec![asked, asked])
        }),
        ("from its end", |seen, asked| {
            let mut chain = right(seen, asked)?;
            chain.reverse();
            Some(chain)
        }),
        ("places from 1", |seen, asked| {
            right(seen, asked).map(|chain| chain.into_iter().map(|place| place + 1).collect())
        }),
        ("places of lines", |seen, asked| {
            let line = |place: usize| seen.solved.records[place].line as usize - 1;
            right(seen, asked).map(|chain| chain.into_iter().map(line).collect())
        }),
    ];
    for (name, rule) in wrong {
        assert!(found(by(rule)), "{name}");
    }
    // The record on a line, and not at a place.
    assert!(found(|question, place, list| {
        let records = solve(question, MAX_RECORDS).map(|solved| solved.records).unwrap_or_default();
        let listed = records.iter().position(|record| record.line - 1 == place);
        list::chain(question, listed.map_or(place, |listed| listed as u64), list)
    }));
}

/// What is asked for a list that is refused, as a number.
fn refused(number: u64) -> Filled {
    Filled { number, ..Filled::default() }
}

/// How many records are listed in an accepted trace.
fn listed(question: Question) -> Option<u64> {
    solve(question, MAX_RECORDS).ok().map(|solved| solved.records.len() as u64)
}

/// The same question with latencies 0, where that has times and with its own it has none.
fn without_times(question: Question) -> Option<Question> {
    match solve(question, MAX_RECORDS) {
        Err(Refusal { number: NO_TIMES, .. }) => Some(Question { latencies: &[0; LATENCIES], ..question }),
        _ => None,
    }
}

#[test]
fn another_order_of_refusals_is_found() {
    // 16 before 22: the shortest chain has one place.
    assert!(found(|question, place, list| match listed(question) {
        Some(records) if place >= records && list.is_empty() => refused(ROOM),
        _ => list::chain(question, place, list),
    }));
    // 16 before all else, where no list could do.
    assert!(found(|question, place, list| match list.is_empty() {
        true => refused(ROOM),
        false => list::chain(question, place, list),
    }));
    // 22 before all else, where no trace has such a record.
    assert!(found(|question, place, list| match place >= MAX_RECORDS as u64 {
        true => refused(NO_RECORD),
        false => list::chain(question, place, list),
    }));
    // 22 before 15, and the messages without 15.
    assert!(found(|question, place, list| {
        let later = without_times(question).and_then(listed).is_some_and(|records| place >= records);
        if later { refused(NO_RECORD) } else { list::chain(question, place, list) }
    }));
    assert!(messages_are_found(|question, list: &mut [Ends]| {
        list::messages(without_times(question).unwrap_or(question), list)
    }));
}

#[test]
fn other_places_of_no_record_are_found() {
    // What a place is taken for, of so many records.
    type Taken = fn(u64, u64) -> u64;
    let wrong: [(&str, Taken); 6] = [
        ("32 bits of a place", |place, _| place & 0xffff_ffff),
        ("16 bits", |place, _| place & 0xffff),
        ("11 bits", |place, _| place & 0x7ff),
        ("as a number with a sign", |place, _| if place >> 63 == 1 { 0 } else { place }),
        ("the number of records is a place", |place, records| {
            if place == records { records.saturating_sub(1) } else { place }
        }),
        ("the last record's is none", |place, records| if place + 1 == records { records } else { place }),
    ];
    for (name, place_of) in wrong {
        let wrong = |question: Question, place: u64, list: &mut [u64]| {
            let records = listed(question).unwrap_or_default();
            let low = if place == u64::MAX { place } else { place_of(place, records) };
            list::chain(question, low, list)
        };
        assert!(found(wrong), "{name}");
    }
}

/// Whether so many places, which are the second number, are enough for a list of so many.
type Fits = fn(usize, usize) -> bool;

/// Refuses a list by another rule for its length, and fills as much of it as there is.
fn chain_fitting(fits: Fits) -> impl Fn(Question, u64, &mut [u64]) -> Filled {
    move |question, place, list| {
        let mut long = vec![0; MAX_RECORDS];
        fitted(list::chain(question, place, &mut long), &long, list, fits)
    }
}

/// The same of messages.
fn messages_fitting(fits: Fits) -> impl Fn(Question, &mut [Ends]) -> Filled {
    move |question, list| {
        let mut long = vec![Ends::default(); MAX_RECORDS];
        fitted(list::messages(question, &mut long), &long, list, fits)
    }
}

fn fitted<T: Copy>(answer: Filled, long: &[T], list: &mut [T], fits: Fits) -> Filled {
    let needed = answer.filled as usize;
    if answer.number == 0 && !fits(needed, list.len()) {
        return refused(ROOM);
    }
    list.iter_mut().zip(&long[..needed]).for_each(|(place, &own)| *place = own);
    answer
}

#[test]
fn other_lengths_of_lists_are_found() {
    let right: Fits = |needed, places| needed <= places;
    assert!(lister_passes(messages_fitting(right), chain_fitting(right)));
    let wrong: [(&str, Fits); 5] = [
        ("an exact fit is none", |needed, places| needed < places),
        ("nothing but an exact fit", |needed, places| needed == places),
        ("two places at least", |needed, places| needed <= places && places > 1),
        ("one place short", |needed, places| needed <= places + 1),
        ("never too short", |_, _| true),
    ];
    for (name, fits) in wrong {
        assert!(found(chain_fitting(fits)), "{name}");
        assert!(messages_are_found(messages_fitting(fits)), "{name}");
    }
    // An empty list is good where there is no message.
    assert!(messages_are_found(messages_fitting(|needed, places| needed <= places && places > 0)));
    // As many places as records.
    assert!(found(|question, place, list| match listed(question) {
        Some(records) if (list.len() as u64) < records && place < records => refused(ROOM),
        _ => list::chain(question, place, list),
    }));
    assert!(messages_are_found(|question, list| match listed(question) {
        Some(records) if (list.len() as u64) < records => refused(ROOM),
        _ => list::messages(question, list),
    }));
}
