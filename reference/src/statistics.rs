//! Request 8 of document 02: what statistics records tell, held against the records before them.

use crate::line::{Counted, Role, Standing, Subject, Told, standing};
use crate::refusal::{Refusal, STATISTICS};
use crate::trace::Record;
use std::collections::HashMap;

/// What the lines so far leave of an event on a processor.
#[derive(Clone, Copy, Debug, Default)]
pub struct Sums {
    pub marks: u64,
    pub entries: u64,
    pub exits: u64,
    /// The sum of the exits' times less that of the entries'. It may pass 64 bits where records are many.
    pub spent: i128,
    /// The lengths of what was sent by entries.
    pub sent: i64,
    /// The lengths of what was received by exits.
    pub received: i64,
}

/// These of each processor and event that has some.
pub type All = HashMap<(usize, i64), Sums>;

/// "A difference is refusal 19 at the first statistics line in the file that has one".
pub fn check(records: &[Record]) -> Result<(), Refusal> {
    let mut all = All::new();
    for record in records {
        if differs(record, &all) {
            return Err(Refusal::of_line(STATISTICS, record.line));
        }
        add(&mut all, record);
    }
    Ok(())
}

/// Counts a record in.
pub fn add(all: &mut All, record: &Record) {
    let Subject::Counted(counted, event) = record.subject else { return };
    let sums = all.entry((record.processor, event)).or_default();
    match counted {
        Counted::Mark => sums.marks += 1,
        Counted::Entry => {
            sums.entries += 1;
            sums.spent -= i128::from(record.time);
        }
        Counted::Exit => {
            sums.exits += 1;
            sums.spent += i128::from(record.time);
        }
    }
    match record.role {
        Role::Send(message) => sums.sent += message.length,
        Role::Receive(message) => sums.received += message.length,
        Role::Local => {}
    }
}

/// Whether a record tells another thing of an event than these say. "A pair whose event isn't listed" is not
/// compared.
fn differs(record: &Record, all: &All) -> bool {
    let Subject::Told(told, pairs) = &record.subject else { return false };
    pairs.iter().any(|&(event, number)| {
        let sums = all.get(&(record.processor, event)).copied().unwrap_or_default();
        standing(event) == Standing::Listed && sums.differ(*told, event, number)
    })
}

/// "a time of -1.000000"
const UNMEASURED: i64 = -1_000_000;

impl Sums {
    /// Whether what is told of an event is something else, as far as it is compared.
    pub fn differ(self, told: Told, event: i64, number: i64) -> bool {
        match told {
            Told::Times => number != UNMEASURED && self.is_even() && self.is_off(number),
            Told::Counts => number != -1 && i128::from(number) != i128::from(self.entries + self.marks),
            Told::Volumes => number != -1 && self.volume(event).is_some_and(|volume| number != volume),
        }
    }

    /// "only where they are equally many"
    fn is_even(self) -> bool {
        self.entries == self.exits
    }

    /// "within one microsecond for each entry"
    fn is_off(self, time: i64) -> bool {
        (i128::from(time) - self.spent).unsigned_abs() > u128::from(self.entries)
    }

    /// "volume of -21, -51 or -52 is the sum of its sends' or receives' lengths"; none for any other.
    pub fn volume(self, event: i64) -> Option<i64> {
        match event {
            -21 => Some(self.sent),
            -51 | -52 => Some(self.received),
            _ => None,
        }
    }
}
