//! The comparison tried on statistics: judges that hold them against something else, or another way, must all
//! be found out.

mod common;

use common::found_among;
use reference::generator::Case;
use reference::line::{Counted, Role, Standing, Subject, Told, standing};
use reference::refusal::{NO_TIMES, ROOM, STATISTICS, UNMATCHED};
use reference::trace::{self, Record};
use reference::{Answer, Asked, Choice, Inputs, MAX_RECORDS, judge};

/// Statistics are compared in a quarter of these.
const CASES: u64 = 20_000;

/// What a pair tells, and where.
#[derive(Clone, Copy)]
struct Pair<'a> {
    records: &'a [Record],
    /// The place of the statistics among these.
    place: usize,
    told: Told,
    event: i64,
    number: i64,
}

impl<'a> Pair<'a> {
    /// The processor's earlier records.
    fn before(self) -> impl Iterator<Item = &'a Record> {
        let processor = self.records[self.place].processor;
        self.records[..self.place].iter().filter(move |record| record.processor == processor)
    }

    /// Those of the pair's event and of this type.
    fn of(self, counted: Counted) -> impl Iterator<Item = &'a Record> {
        self.before().filter(move |record| record.subject == Subject::Counted(counted, self.event))
    }

    fn count(self, counted: Counted) -> i64 {
        self.of(counted).count() as i64
    }

    fn spent(self) -> i128 {
        let sum = |counted| self.of(counted).map(|record| i128::from(record.time)).sum::<i128>();
        sum(Counted::Exit) - sum(Counted::Entry)
    }

    fn off(self) -> i128 {
        (i128::from(self.number) - self.spent()).abs()
    }

    fn volume(self, counted: Counted) -> i64 {
        let length = |record: &Record| match record.role {
            Role::Send(message) | Role::Receive(message) => message.length,
            Role::Local => 0,
        };
        self.of(counted).map(length).sum()
    }

    fn is_listed(self) -> bool {
        standing(self.event) == Standing::Listed
    }

    /// As it is right.
    fn differs(self) -> bool {
        let entries = self.count(Counted::Entry);
        self.is_listed()
            && match (self.told, self.event) {
                (Told::Times, _) => {
                    self.number != -1_000_000
                        && entries == self.count(Counted::Exit)
                        && self.off() > i128::from(entries)
                }
                (Told::Counts, _) => self.number != -1 && self.number != entries + self.count(Counted::Mark),
                (Told::Volumes, -21) => self.number != -1 && self.number != self.volume(Counted::Entry),
                (Told::Volumes, -51 | -52) => self.number != -1 && self.number != self.volume(Counted::Exit),
                (Told::Volumes, _) => false,
            }
    }
}

/// The first line that has a difference.
fn first_differing(text: &[u8], differs: impl Fn(Pair) -> bool) -> Option<u64> {
    let records = trace::read(text, Choice::Lenient).ok()?.records;
    let place = records.iter().enumerate().position(|(place, record)| match &record.subject {
        Subject::Told(told, pairs) => pairs
            .iter()
            .any(|&(event, number)| differs(Pair { records: &records, place, told: *told, event, number })),
        _ => false,
    })?;
    Some(records[place].line)
}

/// Whether what is asked comes to the statistics.
fn comes_to_them(call: &Inputs, asked: Asked) -> bool {
    if call.times.len() != MAX_RECORDS {
        return false;
    }
    let (trace, latencies, mut times) = (call.trace, call.latencies, vec![0; MAX_RECORDS]);
    let unwritten = Inputs { trace, latencies, asked, times: &mut times, wanted: false, room: &mut [] };
    matches!(judge(unwritten).number, 0 | UNMATCHED..=NO_TIMES | ROOM)
}

/// Judges as the reference does, but for what makes a difference.
fn comparing(differs: impl Fn(Pair) -> bool) -> impl Fn(Inputs) -> Answer {
    move |call| {
        if call.asked.statistics != 1 {
            return judge(call);
        }
        let asked = Asked { statistics: 0, ..call.asked };
        match first_differing(call.trace, &differs) {
            Some(line) if comes_to_them(&call, asked) => {
                Answer { number: STATISTICS, line, ..Answer::default() }
            }
            _ => judge(Inputs { asked, ..call }),
        }
    }
}

fn found(differs: impl Fn(Pair) -> bool) -> bool {
    let cases = (0..CASES).map(Case::from_seed).filter(|case| case.asked.statistics == 1);
    found_among(cases, comparing(differs))
}

#[test]
fn the_right_rule_passes() {
    assert!(!found(|pair| pair.differs()));
}

#[test]
fn other_counts_are_found() {
    let by = |count: fn(Pair) -> i64| {
        found(move |pair| match pair.told {
            Told::Counts => pair.is_listed() && pair.number != -1 && pair.number != count(pair),
            _ => pair.differs(),
        })
    };
    assert!(!by(|pair| pair.count(Counted::Entry) + pair.count(Counted::Mark)));
    assert!(by(|pair| pair.count(Counted::Entry)));
    assert!(by(|pair| pair.count(Counted::Mark)));
    assert!(by(|pair| pair.count(Counted::Exit) + pair.count(Counted::Mark)));
    assert!(by(|pair| pair.count(Counted::Entry) + pair.count(Counted::Exit) + pair.count(Counted::Mark)));
    assert!(by(|pair| pair.number.min(pair.count(Counted::Entry) + pair.count(Counted::Mark))));
    // Of every processor, or from anywhere in the file.
    let entries = |records: &[Record], event| {
        let counts = |record: &&Record| {
            [Counted::Entry, Counted::Mark]
                .map(|counted| Subject::Counted(counted, event))
                .contains(&record.subject)
        };
        records.iter().filter(counts).count() as i64
    };
    assert!(found(move |pair| match pair.told {
        Told::Counts => {
            let number = entries(&pair.records[..pair.place], pair.event);
            pair.is_listed() && pair.number != -1 && pair.number != number
        }
        _ => pair.differs(),
    }));
    assert!(found(|pair| {
        let processor = pair.records[pair.place].processor;
        let own: Vec<Record> =
            pair.records.iter().filter(|record| record.processor == processor).cloned().collect();
        match pair.told {
            Told::Counts => pair.is_listed() && pair.number != -1 && pair.number != entries(&own, pair.event),
            _ => pair.differs(),
        }
    }));
}

#[test]
fn times_compared_otherwise_are_found() {
    let by = |off: fn(Pair) -> bool| {
        found(move |pair| match pair.told {
            Told::Times => pair.is_listed() && pair.number != -1_000_000 && off(pair),
            _ => pair.differs(),
        })
    };
    fn even(pair: Pair) -> bool {
        pair.count(Counted::Entry) == pair.count(Counted::Exit)
    }
    fn entries(pair: Pair) -> i128 {
        i128::from(pair.count(Counted::Entry))
    }
    assert!(!by(|pair| even(pair) && pair.off() > entries(pair)));
    assert!(by(|pair| even(pair) && pair.off() >= entries(pair) && pair.off() > 0));
    assert!(by(|pair| even(pair) && pair.off() > 0));
    assert!(by(|pair| even(pair) && pair.off() > entries(pair) + 1));
    assert!(by(|pair| even(pair) && pair.off() > 1));
    assert!(by(|pair| even(pair) && pair.off() > 2 * entries(pair)));
    assert!(by(|pair| even(pair) && i128::from(pair.number) > pair.spent() + entries(pair)));
    assert!(by(|pair| even(pair) && i128::from(pair.number) < pair.spent() - entries(pair)));
    assert!(by(|pair| even(pair) && (i128::from(pair.number) + pair.spent()).abs() > entries(pair)));
    assert!(by(|pair| pair.off() > entries(pair)));
    assert!(by(|pair| even(pair) && entries(pair) > 0 && pair.off() > entries(pair)));
    // In 32 bits, and where a sum below 0 is taken for 0.
    assert!(by(|pair| even(pair) && i128::from((pair.off() as i32).unsigned_abs()) > entries(pair)));
    assert!(by(|pair| {
        even(pair) && (i128::from(pair.number) - pair.spent().max(0)).abs() > entries(pair)
    }));
}

#[test]
fn other_volumes_are_found() {
    let by = |volume: fn(Pair) -> Option<i64>| {
        found(move |pair| match pair.told {
            Told::Volumes => {
                let is_other = |volume| pair.number != -1 && pair.number != volume;
                pair.is_listed() && volume(pair).is_some_and(is_other)
            }
            _ => pair.differs(),
        })
    };
    fn right(pair: Pair) -> Option<i64> {
        match pair.event {
            -21 => Some(pair.volume(Counted::Entry)),
            -51 | -52 => Some(pair.volume(Counted::Exit)),
            _ => None,
        }
    }
    assert!(!by(right));
    assert!(by(|pair| if pair.event == -21 { None } else { right(pair) }));
    assert!(by(|pair| if pair.event == -51 { None } else { right(pair) }));
    assert!(by(|pair| if pair.event == -52 { None } else { right(pair) }));
    assert!(by(|pair| if pair.event == -27 { Some(pair.volume(Counted::Entry)) } else { right(pair) }));
    for event in [-58, -60, -61] {
        assert!(found(move |pair| match (pair.told, pair.event) {
            (Told::Volumes, other) if other == event => {
                pair.number != -1 && pair.number != pair.volume(Counted::Exit)
            }
            _ => pair.differs(),
        }));
    }
    assert!(by(|pair| right(pair).map(|volume| volume.min(8))));
}

#[test]
fn what_is_not_compared_is_found() {
    // Numbers for what was not measured.
    assert!(found(|pair| {
        pair.differs() || pair.is_listed() && pair.told == Told::Counts && pair.number == -1
    }));
    assert!(found(|pair| {
        pair.differs() || pair.is_listed() && pair.told == Told::Times && pair.number == -1_000_000
    }));
    assert!(found(|pair| {
        pair.differs() || pair.told == Told::Volumes && pair.event == -21 && pair.number == -1
    }));
    // Any number below 0 taken for it.
    assert!(found(|pair| pair.differs() && (pair.told == Told::Times || pair.number >= 0)));
    // Events that are not listed, of each kind.
    for kind in [Standing::Unlisted, Standing::NotHandled] {
        assert!(found(move |pair| {
            pair.differs() || pair.told == Told::Counts && standing(pair.event) == kind && pair.number > 0
        }));
    }
    // Only the first pair, or the last.
    assert!(found(|pair| pair.differs()
        && matches!(&pair.records[pair.place].subject,
        Subject::Told(_, pairs) if pairs[0] == (pair.event, pair.number))));
    assert!(found(|pair| pair.differs()
        && matches!(&pair.records[pair.place].subject,
        Subject::Told(_, pairs) if pairs.last() == Some(&(pair.event, pair.number)))));
    assert!(found(|_| false));
}

/// Statistics with another event field compared, too.
#[test]
fn another_event_field_is_found() {
    let cases = (0..CASES).map(|seed| Case { wanted: false, ..Case::from_seed(seed) });
    assert!(found_among(cases, |call| {
        let lines = call.trace.split(|&byte| byte == b'\n').map(|line| {
            let mut fields: Vec<&[u8]> = line.split(|&byte| byte == b' ').collect();
            if matches!(fields[0], b"-101" | b"-102" | b"-103") && fields.len() > 1 {
                fields[1] = b"-1";
            }
            fields.join(&b' ')
        });
        let changed = lines.collect::<Vec<_>>().join(&b'\n');
        judge(Inputs { trace: &changed, ..call })
    }));
}

/// Asked after 13, or before 17.
#[test]
fn another_order_is_found() {
    let without = |call: &mut Inputs| {
        let asked = Asked { statistics: 0, ..call.asked };
        let unwritten =
            Inputs { asked, wanted: false, room: &mut [], times: &mut vec![0; call.times.len()], ..*call };
        judge(unwritten)
    };
    let cases = || (0..CASES).map(Case::from_seed).filter(|case| case.asked.statistics == 1);
    assert!(found_among(cases(), |mut call| match without(&mut call) {
        answer if answer.number >= UNMATCHED => answer,
        _ => judge(call),
    }));
    assert!(found_among(cases(), |mut call| match first_differing(call.trace, |pair| pair.differs()) {
        Some(line) if matches!(without(&mut call).number, 17) => {
            Answer { number: STATISTICS, line, ..Answer::default() }
        }
        _ => judge(call),
    }));
}
