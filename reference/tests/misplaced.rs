//! The comparison tried on columns: judges that are right in everything else, but say another column, must all
//! be found out.

mod common;

use common::found_in;
use reference::field::{Field, fields};
use reference::form::{time, whole};
use reference::line::{Standing, standing};
use reference::{Answer, Inputs, judge};

const CASES: u64 = 10_000;

/// A refused line, as judges see it that say a column of their own.
struct Refused<'a> {
    number: u64,
    /// The right one.
    column: u64,
    /// The line without its LF, if it has one.
    line: &'a [u8],
    ended: bool,
    /// How many bytes of the trace stand before it.
    before: usize,
    fields: Vec<Field<'a>>,
}

impl<'a> Refused<'a> {
    fn of(trace: &'a [u8], answer: &Answer) -> Refused<'a> {
        let lines: Vec<&[u8]> = trace.split_inclusive(|&byte| byte == b'\n').collect();
        let (before, behind) = lines.split_at(answer.line as usize - 1);
        let line = behind[0].strip_suffix(b"\n");
        Refused {
            number: answer.number,
            column: answer.column,
            line: line.unwrap_or(behind[0]),
            ended: line.is_some(),
            before: before.iter().map(|line| line.len()).sum(),
            fields: fields(line.unwrap_or(behind[0])).collect(),
        }
    }

    /// One past the line's last byte.
    fn end(&self) -> u64 {
        self.line.len() as u64 + 1
    }

    /// Where the field at this place begins; the end, if there is none.
    fn at(&self, place: usize) -> u64 {
        self.fields.get(place).map_or(self.end(), |field| field.column)
    }

    /// The place of the field that begins at the right column, in a line that has the six.
    fn place(&self) -> Option<usize> {
        let place = self.fields.iter().position(|field| field.column == self.column);
        place.filter(|_| self.ended && self.fields.len() > 5)
    }

    /// The number at a place, 0 if there is none.
    fn whole(&self, place: usize) -> i64 {
        self.fields.get(place).and_then(|field| whole(field.text)).unwrap_or_default()
    }

    fn has_listed_type(&self) -> bool {
        matches!(self.whole(0), -4..=-2 | 0)
    }

    fn has_unlisted_event(&self) -> bool {
        standing(self.whole(1)) == Standing::Unlisted
    }

    /// The first of the six fields that is bad in form, if there is one.
    fn first_bad(&self) -> Option<u64> {
        let bad = |(place, field): (usize, &Field)| {
            let form = if place == 2 { time } else { whole };
            form(field.text).is_none().then_some(field.column)
        };
        self.fields.iter().take(6).enumerate().find_map(bad)
    }

    /// The field behind the data that are stated, if there is one.
    fn surplus(&self) -> Option<u64> {
        let count = usize::try_from(self.whole(5)).ok()?;
        let stated = if count == 0 { 6 } else { 7 + count };
        self.fields.get(stated).map(|field| field.column)
    }

    /// Whether a listed line's datum is bad in form.
    fn is_bad_datum(&self) -> bool {
        let last = 6 + self.whole(5);
        self.number == 5 && self.place().is_some_and(|place| place > 6 && place as i64 <= last)
    }

    /// So many bytes of this kind stand before the right column.
    fn bytes_before(&self, kind: impl Fn(u8) -> bool) -> u64 {
        self.line.iter().take(self.column as usize - 1).filter(|&&byte| kind(byte)).count() as u64
    }
}

/// Judges as the reference does, but says this column where it says one.
fn saying(column: impl Fn(&Refused) -> u64) -> impl Fn(Inputs) -> Answer {
    move |call| {
        let trace = call.trace;
        let answer = judge(call);
        match answer.column {
            0 => answer,
            _ => Answer { column: column(&Refused::of(trace, &answer)), ..answer },
        }
    }
}

/// Names of judges, and what each says for a column.
type Judges<'a> = &'a [(&'a str, fn(&Refused) -> u64)];

#[track_caller]
fn all_are_found(judges: Judges) {
    for (name, column) in judges {
        assert!(found_in(CASES, saying(column)), "{name}");
    }
}

#[test]
fn the_right_column_passes() {
    assert!(!found_in(CASES, saying(|refused| refused.column)));
}

#[test]
fn columns_counted_otherwise_are_found() {
    all_are_found(&[
        ("no column", |_| 0),
        ("always the first", |_| 1),
        ("counted from 0", |refused| refused.column - 1),
        ("the space before the field", |refused| (refused.column - 1).max(1)),
        ("the field before", |refused| {
            let before = refused.fields.iter().rfind(|field| field.column < refused.column);
            before.map_or(refused.column, |field| field.column)
        }),
        ("the field behind", |refused| {
            let behind = refused.fields.iter().find(|field| field.column > refused.column);
            behind.map_or(refused.column, |field| field.column)
        }),
        ("the field's number", |refused| {
            refused.fields.iter().filter(|field| field.column <= refused.column).count() as u64
        }),
        ("the last byte for one past it", |refused| refused.column.min(refused.end() - 1)),
        ("LF counted", |refused| match refused.ended && refused.column == refused.end() {
            true => refused.column + 1,
            false => refused.column,
        }),
        ("counted from the trace's start", |refused| refused.before as u64 + refused.column),
        ("eight bits of it", |refused| refused.column % 256),
    ]);
}

#[test]
fn bytes_counted_otherwise_are_found() {
    all_are_found(&[
        ("tabs to the next eight", |refused| refused.column + 7 * refused.bytes_before(|byte| byte == b'\t')),
        ("CR not counted", |refused| refused.column - refused.bytes_before(|byte| byte == b'\r')),
        ("NUL not counted", |refused| refused.column - refused.bytes_before(|byte| byte == 0)),
        ("characters of UTF-8", |refused| {
            refused.column - refused.bytes_before(|byte| byte & 0b1100_0000 == 0b1000_0000)
        }),
        ("bytes above 127 as two", |refused| refused.column + refused.bytes_before(|byte| byte > 127)),
    ]);
}

#[test]
fn empty_fields_misplaced_are_found() {
    fn is_empty(refused: &Refused) -> bool {
        refused.place().is_some_and(|place| refused.fields[place].text.is_empty())
    }
    all_are_found(&[
        ("the space before it", |refused| {
            refused.column - u64::from(is_empty(refused) && refused.column > 1)
        }),
        ("the byte behind it", |refused| refused.column + u64::from(is_empty(refused))),
        ("the line's last byte", |refused| {
            let last = is_empty(refused) && refused.column == refused.end();
            refused.column - u64::from(last)
        }),
        ("the last byte for an empty sixth", |refused| match refused.place() {
            Some(5) if is_empty(refused) && refused.fields.len() == 6 => refused.end() - 1,
            _ => refused.column,
        }),
    ]);
}

#[test]
fn missing_fields_misplaced_are_found() {
    all_are_found(&[
        ("a bad timestamp where fields are missing", |refused| match refused.fields.get(2) {
            Some(stamp) if refused.ended && refused.fields.len() < 6 && time(stamp.text).is_none() => {
                stamp.column
            }
            _ => refused.column,
        }),
        ("a bad field where fields are missing", |refused| {
            let few = refused.ended && refused.fields.len() < 6;
            refused.first_bad().filter(|_| few).unwrap_or(refused.column)
        }),
        ("a bad field where the LF is missing", |refused| match refused.ended {
            true => refused.column,
            false => refused.first_bad().unwrap_or(refused.column),
        }),
        ("the last field where fields are missing", |refused| {
            let last = refused.fields.len() - 1;
            if refused.fields.len() < 6 { refused.at(last) } else { refused.column }
        }),
        ("the last field where the LF is missing", |refused| match refused.ended {
            true => refused.column,
            false => refused.at(refused.fields.len() - 1),
        }),
        ("the count where data are missing", |refused| {
            let missing = refused.place().is_none() && refused.ended && refused.fields.len() > 5;
            if missing { refused.at(5) } else { refused.column }
        }),
        ("a missing datum before a bad one", |refused| {
            let stated = 7 + refused.whole(5);
            let missing = refused.is_bad_datum() && (refused.fields.len() as i64) < stated;
            if missing { refused.end() } else { refused.column }
        }),
    ]);
}

#[test]
fn surplus_fields_misplaced_are_found() {
    fn is_surplus(refused: &Refused) -> bool {
        refused.number == 5 && refused.place().is_some() && refused.surplus() == Some(refused.column)
    }
    all_are_found(&[
        ("the line's end", |refused| if is_surplus(refused) { refused.end() } else { refused.column }),
        ("the last of them", |refused| match is_surplus(refused) {
            true => refused.at(refused.fields.len() - 1),
            false => refused.column,
        }),
        ("the space before it", |refused| refused.column - u64::from(is_surplus(refused))),
        ("the count", |refused| if is_surplus(refused) { refused.at(5) } else { refused.column }),
        ("before a bad datum", |refused| {
            refused.surplus().filter(|_| refused.is_bad_datum()).unwrap_or(refused.column)
        }),
        ("a bad one behind it", |refused| {
            let bad = |field: &&Field| field.column > refused.column && whole(field.text).is_none();
            let bad = refused.fields.iter().find(bad).filter(|_| is_surplus(refused));
            bad.map_or(refused.column, |field| field.column)
        }),
    ]);
}

#[test]
fn ends_of_unlisted_lines_misplaced_are_found() {
    fn is_unlisted(refused: &Refused) -> bool {
        let behind = refused.place().is_none_or(|place| place == 6);
        let has_six = refused.ended && refused.fields.len() > 5;
        refused.number == 5
            && has_six
            && behind
            && (!refused.has_listed_type() || refused.has_unlisted_event())
    }
    all_are_found(&[
        ("the line's end for a field too many", |refused| match is_unlisted(refused) {
            true => refused.end(),
            false => refused.column,
        }),
        ("the count where nothing is behind it", |refused| match is_unlisted(refused) {
            true if refused.whole(5) > 0 => refused.at(5),
            _ => refused.column,
        }),
        ("the space where it is alone", |refused| match is_unlisted(refused) {
            true if refused.whole(5) > 0 && refused.fields.len() > 6 => refused.column - 1,
            _ => refused.column,
        }),
    ]);
}

#[test]
fn counts_misplaced_are_found() {
    fn is_above_16(refused: &Refused) -> bool {
        refused.number == 5 && refused.place() == Some(5) && (17..1_000).contains(&refused.whole(5))
    }
    all_are_found(&[
        ("above 16: the descriptor", |refused| match is_above_16(refused) {
            true => refused.at(6),
            false => refused.column,
        }),
        ("above 16: the seventeenth datum", |refused| match is_above_16(refused) {
            true => refused.at(7 + 16),
            false => refused.column,
        }),
        ("above 16: the line's end", |refused| match is_above_16(refused) {
            true => refused.end(),
            false => refused.column,
        }),
        ("above 16: a bad datum before it", |refused| {
            let bad = refused.fields.iter().skip(7).find(|field| whole(field.text).is_none());
            bad.filter(|_| is_above_16(refused)).map_or(refused.column, |field| field.column)
        }),
    ]);
}

/// Another field of the six where this number is given.
#[test]
fn other_fields_for_7_to_9_are_found() {
    for (number, place) in [(7, 0), (7, 1), (8, 0), (8, 2), (9, 3), (9, 4), (6, 1), (6, 3)] {
        let wrong =
            saying(|refused| if refused.number == number { refused.at(place) } else { refused.column });
        assert!(found_in(CASES, wrong), "{number} at {place}");
    }
    all_are_found(&[
        ("7: the event where both are unlisted", |refused| {
            let calls = refused.number == 7 && refused.has_unlisted_event();
            if calls { refused.at(1) } else { refused.column }
        }),
        ("9: the process where both are bad", |refused| match refused.whole(4) {
            0 => refused.column,
            _ if refused.number == 9 => refused.at(4),
            _ => refused.column,
        }),
    ]);
}

#[test]
fn other_fields_for_10_are_found() {
    for place in 5..10 {
        let wrong = saying(|refused| if refused.number == 10 { refused.at(place) } else { refused.column });
        assert!(found_in(CASES, wrong), "10 at {place}");
    }
    fn has_three(refused: &Refused) -> bool {
        refused.whole(5) == 3
    }
    all_are_found(&[
        ("the descriptor before the count", |refused| match refused.number {
            10 if refused.whole(5) > 0 && refused.whole(6) != 2 => refused.at(6),
            _ => refused.column,
        }),
        ("too few or too many data for the count", |refused| match refused.number {
            10 if !has_three(refused) => refused.at(refused.fields.len().min(10)),
            _ => refused.column,
        }),
        ("a bad datum before the count", |refused| match refused.number {
            10 if !has_three(refused) && refused.whole(7) < 0 => refused.at(7),
            _ => refused.column,
        }),
        ("the first datum for the descriptor", |refused| match refused.number {
            10 if has_three(refused) && refused.whole(6) != 2 => refused.at(7),
            _ => refused.column,
        }),
        ("the processor before the length", |refused| match refused.number {
            10 if has_three(refused) && !(0..64).contains(&refused.whole(9)) => refused.at(9),
            _ => refused.column,
        }),
        ("the type for either", |refused| match refused.number {
            10 if refused.column >= refused.at(7) => refused.at(8),
            _ => refused.column,
        }),
    ]);
}

/// The place of a field where none is meant: the timestamp's for 11, any for the others.
#[test]
fn columns_of_other_refusals_are_found() {
    for number in [1, 2, 3, 4, 11, 12, 13, 14, 15, 16, 17] {
        let wrong = |call: Inputs| {
            let answer = judge(call);
            if answer.number == number { Answer { column: 1, ..answer } } else { answer }
        };
        assert!(found_in(CASES, wrong), "{number}");
    }
    assert!(found_in(CASES, |call| {
        let answer = judge(call);
        Answer { column: answer.column.max(u64::from(answer.number == 0)), ..answer }
    }));
}
