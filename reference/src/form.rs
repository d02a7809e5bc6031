//! The two forms that a field can have, and how a time is written.

/// A whole number: optional minus, digits, no leading zero, no "-0", size at most 999,999,999.
pub fn whole(field: &[u8]) -> Option<i64> {
    let (negative, digits) = sign(field);
    signed(negative, natural(digits)?)
}

/// A time in microseconds: optional minus, a whole part of 1 to 9 digits without a leading zero, a
/// point, six digits; not "-0.000000".
pub fn time(field: &[u8]) -> Option<i64> {
    let (negative, size) = sign(field);
    let (seconds, fraction) = size.split_at_checked(size.len().checked_sub(7)?)?;
    let micros = digits(fraction.strip_prefix(b".")?)?;
    signed(negative, natural(seconds)? * 1_000_000 + micros)
}

/// Appends the one way in which a time is written.
pub fn write_time(time: i64, text: &mut Vec<u8>) {
    if time < 0 {
        text.push(b'-');
    }
    let size = time.unsigned_abs();
    text.extend(format!("{}.{:06}", size / 1_000_000, size % 1_000_000).bytes());
}

fn sign(field: &[u8]) -> (bool, &[u8]) {
    match field.strip_prefix(b"-") {
        Some(rest) => (true, rest),
        None => (false, field),
    }
}

/// Zero has no minus.
fn signed(negative: bool, size: i64) -> Option<i64> {
    match (negative, size) {
        (true, 0) => None,
        (true, _) => Some(-size),
        (false, _) => Some(size),
    }
}

/// 1 to 9 digits without a leading zero, a single 0 being good.
fn natural(field: &[u8]) -> Option<i64> {
    match field {
        [] | [b'0', _, ..] => None,
        _ if field.len() > 9 => None,
        _ => digits(field),
    }
}

/// The value of a run of digits and of nothing else.
fn digits(field: &[u8]) -> Option<i64> {
    field.iter().try_fold(0, |value, byte| match byte {
        b'0'..=b'9' => Some(value * 10 + i64::from(byte - b'0')),
        _ => None,
    })
}
