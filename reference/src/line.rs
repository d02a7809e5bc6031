//! One line: refused, passed over or a listed record. The checks stand in document 01's order.

use crate::field::{self, Field};
use crate::form::{time, whole};
use crate::levels::Levels;
use crate::refusal::{FORM, Fault, MESSAGE, NOT_HANDLED, PLACE, TIMESTAMP, UNLISTED};
use crate::{Choice, PROCESSORS};
use std::ops::Range;

/// What a good line is.
#[derive(Clone, Debug, PartialEq, Eq)]
pub enum Line {
    Passed,
    Listed(Record),
}

/// A listed record, as far as the rest of the job needs it.
#[derive(Clone, Debug, PartialEq, Eq)]
pub struct Record {
    pub processor: usize,
    pub time: i64,
    /// Where the timestamp stands in the line.
    pub stamp: Range<usize>,
    pub role: Role,
    /// The tracing levels that it tells, if it is a mark that counts.
    pub levels: Option<Levels>,
    pub subject: Subject,
}

/// What a record is to the statistics.
#[derive(Clone, Debug, PartialEq, Eq)]
pub enum Subject {
    /// A mark, an entry or an exit of an event.
    Counted(Counted, i64),
    /// A statistics record with event field -1: its pairs, each an event and what is told of it.
    Told(Told, Vec<(i64, i64)>),
    Neither,
}

#[derive(Clone, Copy, Debug, PartialEq, Eq)]
pub enum Counted {
    Mark,
    Entry,
    Exit,
}

/// What a statistics record tells of events.
#[derive(Clone, Copy, Debug, PartialEq, Eq)]
pub enum Told {
    Times,
    Counts,
    Volumes,
}

impl Told {
    /// By the record type, if it is one of statistics.
    pub fn by(record_type: i64) -> Option<Told> {
        match record_type {
            -101 => Some(Told::Times),
            -102 => Some(Told::Counts),
            -103 => Some(Told::Volumes),
            _ => None,
        }
    }

    /// "The descriptor is the quoted text".
    pub fn descriptor(self) -> &'static str {
        match self {
            Told::Times => "\"%d%lf\"",
            Told::Counts | Told::Volumes => "\"%d%d\"",
        }
    }

    /// The form of what is told of an event.
    fn form(self) -> fn(&[u8]) -> Option<i64> {
        match self {
            Told::Times => time,
            Told::Counts | Told::Volumes => whole,
        }
    }
}

/// The part that a record has in a message, if any.
#[derive(Clone, Copy, Debug, PartialEq, Eq)]
pub enum Role {
    Local,
    Send(Message),
    Receive(Message),
}

#[derive(Clone, Copy, Debug, PartialEq, Eq)]
pub struct Message {
    pub length: i64,
    pub kind: i64,
    /// The destination of a send, the source of a receive.
    pub partner: usize,
}

/// How document 01's table sorts an event type, the ten events of request 2 among the listed ones.
#[derive(Clone, Copy, Debug, PartialEq, Eq)]
pub enum Standing {
    Listed,
    NotHandled,
    Unlisted,
}

pub fn standing(event: i64) -> Standing {
    match event {
        0.. => Standing::Listed,
        -12..=-11 | -21 | -31..=-27 | -52..=-51 | -61..=-57 => Standing::Listed,
        -80..=-22 => Standing::NotHandled,
        -202..=-201 | -221 | -251 | -402..=-401 | -503..=-501 | -603..=-601 => Standing::Listed,
        -904..=-901 | -914..=-911 => Standing::Listed,
        _ => Standing::Unlisted,
    }
}

/// Reads one line, without its LF.
pub fn read(line: &[u8], choice: Choice) -> Result<Line, Fault> {
    let missing = field::missing(line);
    let mut rest = field::fields(line);
    let mut next = || rest.next().ok_or(missing);
    let six = [next()?, next()?, next()?, next()?, next()?, next()?];

    let record_type = six[0].read(whole, FORM)?;
    let event = six[1].read(whole, FORM)?;
    let time = six[2].read(time, TIMESTAMP)?;
    let processor = six[3].read(whole, FORM)?;
    let process = six[4].read(whole, FORM)?;
    let count = six[5].read(stated, FORM)?;

    // The field that makes the line unlisted, if one does: of two the record type.
    let told = Told::by(record_type);
    let unlisted = match (record_type, standing(event)) {
        _ if told.is_some() => None,
        (-4..=-2 | 0, Standing::Listed) => None,
        (-4..=-2 | 0, Standing::NotHandled) => return Err(six[1].refused(NOT_HANDLED)),
        (-4..=-2 | 0, Standing::Unlisted) => Some(six[1]),
        _ => Some(six[0]),
    };
    if let Some(field) = unlisted {
        end_of_unlisted(count, rest.next(), missing)?;
        return match choice {
            Choice::Strict => Err(field.refused(UNLISTED)),
            Choice::Lenient => Ok(Line::Passed),
        };
    }

    let processor = on_machine(processor).ok_or(six[3].refused(PLACE))?;
    if process != 0 {
        return Err(six[4].refused(PLACE));
    }
    if count > 16 {
        return Err(six[5].refused(FORM));
    }
    let start = six[2].column as usize - 1;
    let stamp = start..start + six[2].text.len();
    if let Some(told) = told {
        let pairs = pairs(told, count, rest, missing)?;
        let subject = if event == -1 { Subject::Told(told, pairs) } else { Subject::Neither };
        let role = Role::Local;
        return Ok(Line::Listed(Record { processor, time, stamp, role, levels: None, subject }));
    }
    let data = Data::read(count, rest, missing)?;
    // A send is where it begins and a receive where it is complete: -59 found that it is not, and what
    // tells of a send's end tells of no arrival.
    let role = match (record_type, event) {
        (-3, -21 | -27) => Role::Send(message(six[5], &data)?),
        (-4, -51 | -52 | -58 | -60 | -61) => Role::Receive(message(six[5], &data)?),
        _ => Role::Local,
    };
    let levels = match (record_type, event) {
        (-2, -904) => data.levels(),
        _ => None,
    };
    let subject = match record_type {
        -2 => Subject::Counted(Counted::Mark, event),
        -3 => Subject::Counted(Counted::Entry, event),
        -4 => Subject::Counted(Counted::Exit, event),
        _ => Subject::Neither,
    };
    Ok(Line::Listed(Record { processor, time, stamp, role, levels, subject }))
}

/// The number of data fields, as any line may state it.
fn stated(field: &[u8]) -> Option<i64> {
    whole(field).filter(|count| (0..=999).contains(count))
}

/// An unlisted line with data has a space and at least one more byte after its six fields; one without has
/// no seventh field.
fn end_of_unlisted(count: i64, seventh: Option<Field>, missing: Fault) -> Result<(), Fault> {
    match seventh {
        None if count > 0 => Err(missing),
        Some(surplus) if count == 0 => Err(surplus.refused(FORM)),
        // A lone space, so that nothing stands where this field begins.
        Some(empty) if empty.column == missing.column => Err(missing),
        _ => Ok(()),
    }
}

/// Descriptor and pairs of a statistics line from left to right, exactly as many as stated.
fn pairs<'a>(
    told: Told,
    count: i64,
    mut rest: impl Iterator<Item = Field<'a>>,
    missing: Fault,
) -> Result<Vec<(i64, i64)>, Fault> {
    let mut pairs = Vec::new();
    if count > 0 {
        let descriptor = rest.next().ok_or(missing)?;
        if descriptor.text != told.descriptor().as_bytes() {
            return Err(descriptor.refused(FORM));
        }
        for _ in 0..count {
            let event = rest.next().ok_or(missing)?.read(whole, FORM)?;
            pairs.push((event, rest.next().ok_or(missing)?.read(told.form(), FORM)?));
        }
    }
    match rest.next() {
        Some(surplus) => Err(surplus.refused(FORM)),
        None => Ok(pairs),
    }
}

/// What another listed record has behind its six fields.
struct Data<'a> {
    /// None where there are no data.
    descriptor: Option<Field<'a>>,
    /// Each datum, and what it says in the form that the descriptor names.
    values: Vec<(Field<'a>, i64)>,
}

impl<'a> Data<'a> {
    /// Descriptor and data from left to right, exactly as many as stated.
    fn read(
        count: i64,
        mut rest: impl Iterator<Item = Field<'a>>,
        missing: Fault,
    ) -> Result<Data<'a>, Fault> {
        let mut data = Data { descriptor: None, values: Vec::new() };
        if count > 0 {
            let descriptor = rest.next().ok_or(missing)?;
            let form = match descriptor.text {
                b"2" => whole,
                b"5" => time,
                _ => return Err(descriptor.refused(FORM)),
            };
            data.descriptor = Some(descriptor);
            for _ in 0..count {
                let datum = rest.next().ok_or(missing)?;
                data.values.push((datum, datum.read(form, FORM)?));
            }
        }
        match rest.next() {
            Some(surplus) => Err(surplus.refused(FORM)),
            None => Ok(data),
        }
    }

    /// The three levels of a mark that counts.
    fn levels(&self) -> Option<Levels> {
        match (self.descriptor?.text, &self.values[..]) {
            (b"2", &[(_, picl), (_, user), (_, trace)]) => Some(Levels { picl, user, trace }),
            _ => None,
        }
    }
}

/// Length, message type and partner. "For 10 it is the data count's if that is wrong, else the descriptor's
/// if it isn't 2, else the first bad datum's."
fn message(count: Field, data: &Data) -> Result<Message, Fault> {
    let (Some(descriptor), &[(first, length), (_, kind), (third, partner)]) =
        (data.descriptor, &data.values[..])
    else {
        return Err(count.refused(MESSAGE));
    };
    if descriptor.text != b"2" {
        return Err(descriptor.refused(MESSAGE));
    }
    if length < 0 {
        return Err(first.refused(MESSAGE));
    }
    let partner = on_machine(partner).ok_or(third.refused(MESSAGE))?;
    Ok(Message { length, kind, partner })
}

fn on_machine(processor: i64) -> Option<usize> {
    usize::try_from(processor).ok().filter(|&processor| processor < PROCESSORS)
}
