//! What a reader overlooks that takes a line for good which is one byte off. Each such thing has to come up
//! at each place of a line, so that `reference/compare` finds the reader out.

use reference::form::{time, whole};
use reference::generator::Case;
use reference::generator::stroke::{KIND, LONGEST_START};
use reference::line::{self, Line};
use reference::refusal::Fault;
use reference::trial::Call;
use reference::{Choice, judge};
use std::cmp::Ordering;
use std::collections::BTreeSet;

/// `reference/compare` runs five times as many.
const CASES: u64 = 40_000;

const NUMBERS: &[&str] = &[
    "record type",
    "event",
    "timestamp's seconds",
    "processor",
    "process",
    "datum",
    "datum's seconds",
    "count",
];
const POINTS: &[&str] = &["timestamp's point", "datum's point"];
const FRACTIONS: &[&str] = &["timestamp's fraction", "datum's fraction"];
const SPACES: &[&str] = &[
    "space behind record type",
    "space behind event",
    "space behind timestamp",
    "space behind processor",
    "space behind process",
    "space behind count",
    "space behind descriptor",
    "space behind datum",
];

/// Parts of a line, and what can be wrong at each of them.
const WANTED: [(&[&str], &[&str]); 10] = [
    (NUMBERS, &["slash", "colon", "minus", "missing", "extra minus", "leading zero"]),
    // A count of nine digits is no good one.
    (NUMBERS.split_last().unwrap().1, &["tenth digit"]),
    (NUMBERS, &["minus zero"]),
    (&["count"], &["digit", "extra digit"]),
    (&["descriptor"], &["digit", "extra digit", "minus", "slash", "colon"]),
    (&["quoted descriptor"], &["other", "digit", "missing", "extra other"]),
    (POINTS, &["slash", "colon", "minus", "comma", "digit", "blank", "high", "missing", "extra point"]),
    (FRACTIONS, &["slash", "colon", "minus", "point", "blank", "high", "missing", "extra digit"]),
    (SPACES, &["digit", "minus", "blank", "high", "missing", "extra space", "extra minus"]),
    (&["LF"], &["digit", "minus", "blank", "high", "missing", "extra space", "extra blank"]),
];

/// What is wrong at a place: the byte there, one that is too much, or one that is missing.
#[derive(Clone, Copy)]
enum Wrong {
    Byte(u8),
    Extra(u8),
    Missing,
}

/// What is wrong at a place of what would be a good line otherwise.
struct Stroke {
    wrong: Wrong,
    place: usize,
    good: Vec<u8>,
}

/// Every way to make good lines of these by one byte, at one of these places.
fn strokes(lines: &[u8], places: impl Iterator<Item = usize>) -> Vec<Stroke> {
    const DUE: &[u8] = b"0123456789.- \n\"%dlf";
    let mut strokes = Vec::new();
    for place in places {
        let (before, behind) = lines.split_at(place);
        let mut tried: Vec<_> =
            DUE.iter().map(|&due| (Wrong::Missing, [before, &[due], behind].concat())).collect();
        if let [byte, behind @ ..] = behind {
            tried.push((Wrong::Extra(*byte), [before, behind].concat()));
            tried.extend(DUE.iter().map(|&due| (Wrong::Byte(*byte), [before, &[due], behind].concat())));
        }
        tried.retain(|(_, mended)| are_good(mended));
        strokes.extend(tried.into_iter().map(|(wrong, mended)| {
            let start = mended[..place].iter().rposition(|&byte| byte == b'\n').map_or(0, |end| end + 1);
            let line = mended[start..].split_inclusive(|&byte| byte == b'\n').next().unwrap_or_default();
            Stroke { wrong, place: place - start, good: line.to_vec() }
        }));
    }
    strokes
}

/// Whether lines have a good form, whatever they mean.
fn are_good(lines: &[u8]) -> bool {
    let good = |line| !matches!(line::read(line, Choice::Lenient), Err(Fault { number: 5 | 6, .. }));
    lines.strip_suffix(b"\n").is_some_and(|lines| lines.split(|&byte| byte == b'\n').all(good))
}

impl Stroke {
    /// The part of the line, and what is wrong there. None behind the last line, and where bytes are free.
    fn overlooked(&self) -> Option<(String, &'static str)> {
        const FIELDS: [&str; 8] =
            ["record type", "event", "timestamp", "processor", "process", "count", "descriptor", "datum"];
        let Stroke { wrong, place, ref good } = *self;
        let byte = *good.get(place)?;
        let index = good[..place].iter().filter(|&&byte| byte == b' ').count();
        if index > 5 && line::read(good.strip_suffix(b"\n")?, Choice::Lenient) == Ok(Line::Passed) {
            return None;
        }
        let start = good[..place].iter().rposition(|&byte| byte == b' ').map_or(0, |space| space + 1);
        let field = good[start..].split(|byte| b" \n".contains(byte)).next()?;
        let name = if field.starts_with(b"\"") { "quoted descriptor" } else { FIELDS[index.min(7)] };
        // The digits of a number, or of a time's seconds.
        let first = start + usize::from(field.starts_with(b"-"));
        let digits = field.split(|&byte| byte == b'.').next()?.len() - (first - start);
        let wrong = match wrong {
            Wrong::Extra(b'0') if place == first && digits > 0 => "leading zero",
            Wrong::Extra(b'0'..=b'9') if digits == 9 && (first..first + 9).contains(&place) => "tenth digit",
            Wrong::Extra(b'-') if whole(field).or(time(field)) == Some(0) && place == start => "minus zero",
            Wrong::Extra(byte) => extra(byte),
            Wrong::Byte(byte) => name_of(byte),
            Wrong::Missing => "missing",
        };
        let part = match byte {
            b'\n' => "LF".to_string(),
            b' ' => format!("space behind {name}"),
            _ if time(field).is_none() => name.to_string(),
            _ => match (place + 7).cmp(&(start + field.len())) {
                Ordering::Less => format!("{name}'s seconds"),
                Ordering::Equal => format!("{name}'s point"),
                Ordering::Greater => format!("{name}'s fraction"),
            },
        };
        Some((part, wrong))
    }
}

fn name_of(byte: u8) -> &'static str {
    match byte {
        b'0'..=b'9' => "digit",
        b'/' => "slash",
        b':' => "colon",
        b'-' => "minus",
        b'.' => "point",
        b',' => "comma",
        b' ' => "space",
        b'\t' | b'\r' | b'\n' | 0 => "blank",
        128.. => "high",
        _ => "other",
    }
}

fn extra(byte: u8) -> &'static str {
    match name_of(byte) {
        "digit" => "extra digit",
        "minus" => "extra minus",
        "point" => "extra point",
        "space" => "extra space",
        "blank" => "extra blank",
        _ => "extra other",
    }
}

/// In lines that begin far before the end all that is wanted comes up; in first lines and in those near the
/// end something does at each part of a line. And every trace with a stroke is one byte off a good one.
#[test]
fn all_that_can_be_overlooked_comes_up() {
    let mut call = Call::default();
    let (mut far, mut near, mut first) = (BTreeSet::new(), BTreeSet::new(), BTreeSet::new());
    for case in (0..CASES).map(Case::from_seed).filter(|case| case.kind == KIND) {
        let answer = call.run(&case, judge);
        if !matches!(answer.number, 5 | 6) {
            continue;
        }
        // The byte may be the LF before the refused line, or its own.
        let refused = answer.line as usize - 1;
        let lines: Vec<&[u8]> = case.trace.split_inclusive(|&byte| byte == b'\n').collect();
        let [start, end] = [refused, refused + 1].map(|count| lines[..count].concat().len());
        let before = refused.saturating_sub(1);
        let around = lines[before..lines.len().min(refused + 2)].concat();
        let offset = lines[..before].concat().len();
        let strokes = strokes(&around, start.saturating_sub(1) - offset..=end - offset);
        assert!(!strokes.is_empty(), "seed {}", case.seed);
        let overlooked: Vec<_> = strokes.iter().filter_map(Stroke::overlooked).collect();
        if refused == 0 {
            first.extend(overlooked.iter().map(|(part, _)| part.clone()));
        }
        if case.trace.len() - start < LONGEST_START {
            near.extend(overlooked.into_iter().map(|(part, _)| part));
        } else {
            far.extend(overlooked);
        }
    }
    for (parts, wrongs) in WANTED {
        for part in parts {
            assert!(near.contains(*part), "no stroke near the end: {part}");
            assert!(first.contains(*part), "no stroke in a first line: {part}");
            for wrong in wrongs {
                assert!(far.contains(&(part.to_string(), *wrong)), "no stroke: {part}, {wrong}");
            }
        }
    }
}
