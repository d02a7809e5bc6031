//! The comparison of listers tried: those whose lists or answers are wrong in one way each, or who touch what
//! they may not, must all be found out. `chain_trial.rs` has those that take another chain.

mod common;

use common::{chains_are_found, lister_passes, messages_are_found};
use reference::generator::inquiry::Inquiry;
use reference::line::Role;
use reference::list::{self, Ends, Filled};
use reference::list_trial::{Tally, Trial};
use reference::refusal::{
    ASKED, BYTES, FORM, LATENCY, LEVELS, LONG_RECEIVE, NO_RECORD, NO_TIMES, RECORDS, ROOM, SIZE, STATISTICS,
    UNMATCHED,
};
use reference::{MAX_RECORDS, Question, Solved, solve};
use std::collections::BTreeSet;

/// Lists as it is right, but something else.
fn listing(ends: impl Fn(&Solved, Vec<Ends>) -> Vec<Ends>) -> impl Fn(Question, &mut [Ends]) -> Filled {
    move |question, list| {
        let answer = list::messages(question, list);
        if !matches!(answer.number, 0 | ROOM) {
            return answer;
        }
        let solved = solve(question, MAX_RECORDS).unwrap_or_else(|refusal| panic!("{refusal:?}"));
        let ends = ends(&solved, list::ends(&solved));
        match list.get_mut(..ends.len()) {
            Some(start) => start.copy_from_slice(&ends),
            None => return Filled { number: ROOM, ..Filled::default() },
        }
        Filled { filled: ends.len() as u64, ..Filled::default() }
    }
}

#[test]
fn the_right_lister_passes() {
    assert!(lister_passes(list::messages, list::chain));
    assert!(lister_passes(listing(|_, ends| ends), list::chain));
}

/// What is made of the messages of an accepted trace.
type Rule = fn(&Solved, Vec<Ends>) -> Vec<Ends>;

#[test]
fn other_messages_are_found() {
    let wrong: [(&str, Rule); 15] = [
        ("send and receive exchanged", |_, ends| {
            ends.iter().map(|&Ends { send, receive }| Ends { send: receive, receive: send }).collect()
        }),
        ("in the order of sends", |_, mut ends| {
            ends.sort_by_key(|ends| ends.send);
            ends
        }),
        ("the last first", |_, mut ends| {
            ends.reverse();
            ends
        }),
        ("receiver by receiver", |solved, mut ends| {
            ends.sort_by_key(|ends| solved.records[ends.receive as usize].processor);
            ends
        }),
        ("earlier receives first", |solved, mut ends| {
            ends.sort_by_key(|ends| solved.records[ends.receive as usize].time);
            ends
        }),
        ("as their times came out", |solved, mut ends| {
            ends.sort_by_key(|ends| solved.settled.times[ends.receive as usize]);
            ends
        }),
        ("places from 1", |_, ends| {
            ends.iter().map(|&Ends { send, receive }| Ends { send: send + 1, receive: receive + 1 }).collect()
        }),
        ("places of lines", |solved, ends| {
            let line = |place: u64| solved.records[place as usize].line - 1;
            ends.iter().map(|ends| Ends { send: line(ends.send), receive: line(ends.receive) }).collect()
        }),
        ("the last is missing", |_, mut ends| {
            ends.pop();
            ends
        }),
        ("those that moved", |solved, mut ends| {
            ends.retain(|ends| {
                let receive = ends.receive as usize;
                solved.records[receive].time != solved.settled.times[receive]
            });
            ends
        }),
        ("no later sends", |_, mut ends| {
            ends.retain(|ends| ends.send < ends.receive);
            ends
        }),
        ("none to itself", |solved, mut ends| {
            let processor = |place: u64| solved.records[place as usize].processor;
            ends.retain(|ends| processor(ends.send) != processor(ends.receive));
            ends
        }),
        ("sends that nobody received, too", |solved, mut ends| {
            let received: BTreeSet<u64> = ends.iter().map(|ends| ends.send).collect();
            let sends = (0..solved.records.len())
                .filter(|&place| matches!(solved.records[place].role, Role::Send(_)))
                .map(|place| place as u64);
            let left = sends.filter(|send| !received.contains(send));
            ends.extend(left.map(|send| Ends { send, receive: send }));
            ends
        }),
        ("the last sent received first", paired_from_the_end),
        ("whatever type it is", paired_without_types),
    ];
    for (name, rule) in wrong {
        assert!(messages_are_found(listing(rule)), "{name}");
    }
}

/// Each receive with the last send that is left of its kind.
fn paired_from_the_end(solved: &Solved, ends: Vec<Ends>) -> Vec<Ends> {
    paired(solved, ends, true, |left| left.pop())
}

/// Each receive with the first send that is left between the two processors.
fn paired_without_types(solved: &Solved, ends: Vec<Ends>) -> Vec<Ends> {
    paired(solved, ends, false, |left| (!left.is_empty()).then(|| left.remove(0)))
}

/// Each receive with one of the sends that are left for it, in file order, or with its own where none is.
fn paired(
    solved: &Solved,
    ends: Vec<Ends>,
    by_type: bool,
    take: fn(&mut Vec<u64>) -> Option<u64>,
) -> Vec<Ends> {
    let mut taken = BTreeSet::new();
    let each = ends.into_iter().map(|own| {
        let receive = &solved.records[own.receive as usize];
        let Role::Receive(received) = receive.role else { return own };
        let mut left: Vec<u64> = (0..solved.records.len())
            .filter(|place| match solved.records[*place].role {
                Role::Send(sent) => {
                    let ways = (solved.records[*place].processor, sent.partner);
                    let same = !by_type || sent.kind == received.kind;
                    same && ways == (received.partner, receive.processor) && !taken.contains(&(*place as u64))
                }
                _ => false,
            })
            .map(|place| place as u64)
            .collect();
        let send = take(&mut left).unwrap_or(own.send);
        taken.insert(send);
        Ends { send, ..own }
    });
    each.collect()
}

/// Both calls, with what is spoilt after the right one.
fn found_after(spoil: impl Fn(Filled) -> Filled) -> bool {
    messages_are_found(|question, list| spoil(list::messages(question, list)))
        && chains_are_found(|question, place, list| spoil(list::chain(question, place, list)))
}

#[test]
fn other_answers_are_found() {
    assert!(found_after(|answer| Filled { line: 0, ..answer }));
    assert!(found_after(|answer| Filled { column: 0, ..answer }));
    assert!(found_after(|answer| Filled { filled: 0, ..answer }));
    assert!(found_after(|answer| Filled { filled: answer.filled.saturating_sub(1), ..answer }));
    assert!(found_after(|answer| Filled { filled: answer.filled.min(255), ..answer }));
    for number in [0, ASKED, SIZE, LATENCY, BYTES, NO_TIMES, ROOM] {
        let of = |answer: Filled| u64::from(answer.number == number);
        assert!(found_after(|answer| Filled { line: answer.line + of(answer), ..answer }), "{number}");
        assert!(found_after(|answer| Filled { column: answer.column + of(answer), ..answer }), "{number}");
    }
    // The places of a list that is lent, filled or not.
    assert!(messages_are_found(|question, list| {
        Filled { filled: list.len() as u64, ..list::messages(question, list) }
    }));
    assert!(chains_are_found(|question, place, list| {
        Filled { filled: list.len() as u64, ..list::chain(question, place, list) }
    }));
    // A line for a place of no record.
    assert!(chains_are_found(|question, place, list| {
        let answer = list::chain(question, place, list);
        Filled { line: if answer.number == NO_RECORD { place } else { answer.line }, ..answer }
    }));
}

/// Refusals that are not given, or given by another number.
#[test]
fn other_refusals_are_found() {
    let all = (ASKED..=NO_TIMES).chain([LEVELS, STATISTICS, ROOM]);
    for number in all {
        let wrong = |answer: Filled| match answer.number == number {
            true => Filled::default(),
            false => answer,
        };
        assert!(found_after(wrong), "{number}");
    }
    let exchanged = |answer: Filled| match answer.number {
        NO_RECORD => Filled { number: ROOM, ..answer },
        ROOM => Filled { number: NO_RECORD, ..answer },
        _ => answer,
    };
    assert!(found_after(exchanged));
}

/// Every place of the list is touched by each refusal, the first one, or the last.
#[test]
fn lists_touched_by_a_refusal_are_found() {
    let numbers =
        [ASKED, SIZE, LATENCY, BYTES, FORM, RECORDS, UNMATCHED, LONG_RECEIVE, NO_TIMES, LEVELS, ROOM];
    for number in numbers {
        assert!(
            messages_are_found(|question, list| {
                let answer = list::messages(question, list);
                if answer.number == number {
                    list.fill(Ends { send: 0, receive: 0 });
                }
                answer
            }),
            "{number}"
        );
    }
    for number in [&numbers[..], &[NO_RECORD]].concat() {
        for touched in [0, usize::MAX] {
            assert!(
                chains_are_found(|question, place, list| {
                    let answer = list::chain(question, place, list);
                    let last = list.len().saturating_sub(1);
                    match list.get_mut(touched.min(last)) {
                        Some(touched) if answer.number == number => *touched = place,
                        _ => {}
                    }
                    answer
                }),
                "{number}"
            );
        }
    }
    // As much of a list as there is.
    assert!(messages_are_found(|question, list| {
        let answer = list::messages(question, list);
        if answer.number == ROOM {
            let solved = solve(question, MAX_RECORDS).unwrap_or_else(|refusal| panic!("{refusal:?}"));
            list.iter_mut().zip(list::ends(&solved)).for_each(|(place, ends)| *place = ends);
        }
        answer
    }));
}

#[test]
fn places_touched_behind_the_list_are_found() {
    for from_behind in [false, true] {
        assert!(messages_are_found(|question, list| {
            let answer = list::messages(question, list);
            let mut behind = list.iter_mut().skip(answer.filled as usize);
            let touched = if from_behind { behind.next_back() } else { behind.next() };
            if answer.number == 0 {
                touched.into_iter().for_each(|ends| ends.receive ^= 1);
            }
            answer
        }));
        assert!(chains_are_found(|question, place, list| {
            let answer = list::chain(question, place, list);
            let mut behind = list.iter_mut().skip(answer.filled as usize);
            let touched = if from_behind { behind.next_back() } else { behind.next() };
            if answer.number == 0 {
                touched.into_iter().for_each(|place| *place = 0);
            }
            answer
        }));
    }
}

/// Every number comes up for each call, and a seed gives the same inquiry again.
#[test]
fn the_generator_reaches_everything() {
    const INQUIRIES: u64 = 5_000;
    let mut tally = Tally::default();
    let mut trial = Trial::default();
    for seed in 0..INQUIRIES {
        let inquiry = Inquiry::from_seed(seed);
        assert_eq!(inquiry, Inquiry::from_seed(seed));
        tally.count(&inquiry, &trial.run(&inquiry, list::messages, list::chain).0);
    }
    let of_judging: BTreeSet<u64> = (0..=NO_TIMES).chain([ROOM, LEVELS, STATISTICS]).collect();
    assert_eq!(tally.messages.keys().copied().collect::<BTreeSet<_>>(), of_judging, "{tally}");
    let of_chains = of_judging.into_iter().chain([NO_RECORD]).collect();
    assert_eq!(tally.chains.keys().copied().collect::<BTreeSet<_>>(), of_chains, "{tally}");
    assert_eq!((tally.inquiries(), tally.kinds.values().sum()), (INQUIRIES, INQUIRIES));
    // Nothing that is asked for is missing.
    assert!(!tally.too_seldom().iter().any(|lack| lack.contains("came up 0 times")), "{tally}");
}

/// So many as `reference/compare` runs, with what they come to: `cargo test --offline -- --ignored
/// --nocapture` prints it.
#[test]
#[ignore = "takes some seconds"]
fn nothing_comes_up_too_seldom() {
    let mut tally = Tally::default();
    let mut trial = Trial::default();
    for seed in 0..50_000 {
        let inquiry = Inquiry::from_seed(seed);
        tally.count(&inquiry, &trial.run(&inquiry, list::messages, list::chain).0);
    }
    print!("{tally}");
    assert_eq!(tally.too_seldom(), [""; 0]);
}

/// A run with too few of something says so.
#[test]
fn too_few_inquiries_are_told() {
    let numbers = |behind: &[u64]| {
        let of_judging = (0..=NO_TIMES).chain([LEVELS, STATISTICS]);
        of_judging.chain(behind.iter().copied()).map(|number| (number, 10_000)).collect()
    };
    let messages = numbers(&[ROOM]);
    let chains = numbers(&[NO_RECORD, ROOM]);
    let mut tally = Tally { messages, chains, ..Tally::default() };
    let shown = tally.too_seldom();
    assert_eq!(shown.len(), 18);
    assert_eq!(shown[0], "no message came up 0 times, 1000 are asked");
    tally.messages.insert(0, 9_999);
    tally.messages.insert(BYTES, 19);
    tally.chains.remove(&NO_RECORD);
    assert_eq!(
        tally.too_seldom()[..3],
        [
            "messages 0 came up 9999 times, 10000 are asked",
            "messages 4 came up 19 times, 20 are asked",
            "chain 22 came up 0 times, 1000 are asked"
        ]
    );
}
