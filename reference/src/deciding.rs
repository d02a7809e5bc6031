//! Which field a column means, in words, so that it can be counted what cases come to.

use crate::field::{Field, fields};
use crate::form::whole;
use crate::line::{Standing, Told, standing};
use crate::{Answer, PROCESSORS};

const SIX: [&str; 6] = ["record type", "event", "timestamp", "processor", "process", "count"];
const DESCRIPTOR: usize = SIX.len();
/// The place of the last datum of sixteen pairs.
const LAST: usize = DESCRIPTOR + 2 * 16;

/// All that a column can mean, each with the number of its refusal.
pub fn all() -> Vec<String> {
    let bad = (0..=LAST).filter(|&place| SIX.get(place) != Some(&"timestamp")).map(name);
    let missing = (1..=LAST).map(|place| format!("no {}", name(place)));
    let unended = (0..=DESCRIPTOR + 1).map(|place| format!("no LF in {}", kind(place)));
    let ends = [
        "count above 16",
        "too many",
        "too many, without data",
        "too many, unlisted",
        "nothing behind, unlisted",
        "a space behind, unlisted",
    ];
    let form = bad.chain(missing).chain(unended).chain(ends.map(str::to_string));
    let others = [
        "6 timestamp",
        "7 record type",
        "7 record type, event too",
        "7 event",
        "8 event",
        "9 processor",
        "9 processor, process too",
        "9 process",
        "10 count",
        "10 count, descriptor too",
        "10 descriptor",
        "10 length",
        "10 length, processor too",
        "10 processor",
    ];
    form.map(|what| format!("5 {what}")).chain(others.map(str::to_string)).collect()
}

/// What the column of an answer means, one of [`all`]; none if it has none.
pub fn deciding(trace: &[u8], answer: &Answer) -> Option<String> {
    let Answer { number, line, column, .. } = *answer;
    if column == 0 {
        return None;
    }
    let text = trace.split_inclusive(|&byte| byte == b'\n').nth(line as usize - 1)?;
    let ended = text.strip_suffix(b"\n");
    let fields: Vec<Field> = fields(ended.unwrap_or(text)).collect();
    let what = match number {
        5 if ended.is_none() => format!("no LF in {}", kind(fields.len() - 1)),
        5 => in_form(&fields, column),
        _ => in_meaning(&fields, number),
    };
    Some(format!("{number} {what}"))
}

/// The name of the field at this place, from 0.
fn name(place: usize) -> String {
    match place.checked_sub(DESCRIPTOR) {
        None => SIX[place].to_string(),
        Some(0) => "descriptor".to_string(),
        Some(datum) => format!("datum {datum}"),
    }
}

/// The same, but for which datum it is.
fn kind(place: usize) -> String {
    if place > DESCRIPTOR { "datum".to_string() } else { name(place) }
}

/// Of refusal 5 in a line that ends with LF.
fn in_form(fields: &[Field], column: u64) -> String {
    if fields.len() < SIX.len() {
        return format!("no {}", name(fields.len()));
    }
    let unlisted = !is_listed_type(fields) || is_unlisted_event(fields);
    let count = whole_at(fields, 5);
    let data = if tells_statistics(fields) { 2 * count } else { count };
    match fields.iter().position(|field| field.column == column) {
        None if unlisted => "nothing behind, unlisted".to_string(),
        None => format!("no {}", name(fields.len())),
        Some(5) if (17..=999).contains(&count) => "count above 16".to_string(),
        Some(place @ ..DESCRIPTOR) => name(place),
        Some(DESCRIPTOR) if count == 0 && unlisted => "too many, unlisted".to_string(),
        Some(DESCRIPTOR) if count == 0 => "too many, without data".to_string(),
        Some(DESCRIPTOR) if unlisted => "a space behind, unlisted".to_string(),
        Some(place) if (place - DESCRIPTOR) as i64 > data => "too many".to_string(),
        Some(place) => name(place),
    }
}

/// Of the refusals 6 to 10, with what else calls for the same one.
fn in_meaning(fields: &[Field], number: u64) -> String {
    let at = |place| whole_at(fields, place);
    let off_machine = |place| !(0..PROCESSORS as i64).contains(&at(place));
    let calling: &[(&str, bool)] = match number {
        6 => &[("timestamp", true)],
        7 => &[("record type", !is_listed_type(fields)), ("event", is_unlisted_event(fields))],
        8 => &[("event", true)],
        9 => &[("processor", off_machine(3)), ("process", at(4) != 0)],
        _ if at(5) != 3 => &[("count", true), ("descriptor", at(5) > 0 && at(6) != 2)],
        // Times are no length and no processor, be they bad or not.
        _ => &[("descriptor", at(6) != 2), ("length", at(7) < 0), ("processor", off_machine(9))],
    };
    let calling: Vec<&str> = calling.iter().filter(|(_, calls)| *calls).map(|(name, _)| *name).collect();
    match calling[..] {
        [first, second, ..] => format!("{first}, {second} too"),
        _ => calling.concat(),
    }
}

fn is_listed_type(fields: &[Field]) -> bool {
    matches!(whole_at(fields, 0), -4..=-2 | 0) || tells_statistics(fields)
}

fn tells_statistics(fields: &[Field]) -> bool {
    Told::by(whole_at(fields, 0)).is_some()
}

/// Of statistics the event is not asked.
fn is_unlisted_event(fields: &[Field]) -> bool {
    !tells_statistics(fields) && standing(whole_at(fields, 1)) == Standing::Unlisted
}

/// The whole number at a place, 0 if there is none.
fn whole_at(fields: &[Field], place: usize) -> i64 {
    fields.get(place).and_then(|field| whole(field.text)).unwrap_or_default()
}
