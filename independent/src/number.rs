//! The forms INT and FLOAT.

/// What a plain word is at a place that wants a number.
#[derive(Clone, Copy, Debug, PartialEq, Eq)]
pub enum Reading {
    /// A number within its form.
    Value(i64),
    /// The wanted form, but not its count of digits or its range (refusal 6).
    Beyond,
    /// Not the wanted form at all (refusal 5).
    Other,
}

/// The greatest FLOAT either way, in millionths.
const FLOAT_MOST: i128 = 9_999_999_999_999;

/// Splits an optional leading minus from the rest.
fn split_sign(word: &[u8]) -> (i128, &[u8]) {
    match word.split_first() {
        Some((b'-', rest)) => (-1, rest),
        _ => (1, word),
    }
}

/// Splits at the first such byte; none where it does not stand.
fn split_at(word: &[u8], byte: u8) -> (&[u8], Option<&[u8]>) {
    match word.iter().position(|&each| each == byte) {
        Some(at) => (&word[..at], Some(&word[at + 1..])),
        None => (word, None),
    }
}

fn is_digits(word: &[u8]) -> bool {
    !word.is_empty() && word.iter().all(u8::is_ascii_digit)
}

/// The value of some digits (at most nineteen here).
fn value<'a>(digits: impl IntoIterator<Item = &'a u8>) -> i128 {
    let add = |sum, &digit: &u8| sum * 10 + i128::from(digit - b'0');
    digits.into_iter().fold(0, add)
}

/// INT: optional `-`, 1 to 10 digits, within 32 signed bits.
pub fn int(word: &[u8]) -> Reading {
    let (sign, digits) = split_sign(word);
    if !is_digits(digits) {
        return Reading::Other;
    }
    if digits.len() > 10 {
        return Reading::Beyond;
    }
    let number = sign * value(digits);
    if number < i128::from(i32::MIN) || number > i128::from(i32::MAX) {
        return Reading::Beyond;
    }
    Reading::Value(number as i64)
}

/// FLOAT: optional `-`, 1 to 7 digits, optionally `.` and 1 to 6 digits,
/// optionally `e`, an optional `-` and one digit 0 to 6.
/// The value is in millionths; it must be a whole number of them.
pub fn float(word: &[u8]) -> Reading {
    let (sign, rest) = split_sign(word);
    let (decimal, exponent) = split_at(rest, b'e');
    let (whole, fraction) = split_at(decimal, b'.');
    let fraction = fraction.unwrap_or(b"0");
    let (exponent_sign, exponent) = split_sign(exponent.unwrap_or(b"0"));
    if ![whole, fraction, exponent].into_iter().all(is_digits) {
        return Reading::Other;
    }
    if whole.len() > 7 || fraction.len() > 6 || !matches!(exponent, [b'0'..=b'6']) {
        return Reading::Beyond;
    }
    // The point moves right by six places for millionths and by the exponent,
    // 0 to 12 in all, so twelve zeros behind the digits are enough.
    let moved = 6 + exponent_sign * value(exponent);
    let point = whole.len() + moved as usize;
    let mut digits = whole.iter().chain(fraction).chain(&[b'0'; 12]);
    let millionths = value(digits.by_ref().take(point));
    let is_whole = digits.all(|&digit| digit == b'0');
    if !is_whole || millionths > FLOAT_MOST {
        return Reading::Beyond;
    }
    Reading::Value((sign * millionths) as i64)
}
