//! Values for INT and FLOAT places, and how they are spelled.

use super::rng::Rng;

pub const FLOAT_MOST: i64 = 9_999_999_999_999;
const INT_LEAST: i64 = -2_147_483_648;
const INT_MOST: i64 = 2_147_483_647;

/// Any INT, its bounds among them.
pub fn any_int(rng: &mut Rng) -> i64 {
    match rng.below(6) {
        0 => *rng.pick(&[INT_LEAST, INT_MOST, INT_LEAST + 1, INT_MOST - 1]),
        1 => rng.between(INT_LEAST, INT_MOST),
        _ => rng.between(-2, 512),
    }
}

/// Any FLOAT in millionths, its bounds among them.
pub fn any_float(rng: &mut Rng) -> i64 {
    match rng.below(9) {
        0 => *rng.pick(&[FLOAT_MOST, -FLOAT_MOST, 1, -1, 0]),
        1 => rng.between(-FLOAT_MOST, FLOAT_MOST),
        2 => rng.between(-999_999, 999_999),
        3 => 1_000_000 * rng.between(-9_999_999, 9_999_999),
        // The greatest values that can be written with each exponent.
        4 => {
            let power = 10_i64.pow(rng.below(7) as u32);
            let most = FLOAT_MOST / power;
            *rng.pick(&[most, -most, most * power, -most * power])
        }
        _ => 1_000 * rng.between(-9_999, 9_999),
    }
}

/// A FLOAT that is short to write.
pub fn short_float(rng: &mut Rng) -> i64 {
    1_000_000 * rng.between(0, 9)
}

/// A level from 0 to 1.
pub fn level(rng: &mut Rng) -> i64 {
    match rng.below(4) {
        0 => *rng.pick(&[0, 1_000_000, 1, 999_999]),
        1 => rng.between(0, 1_000_000),
        _ => 10_000 * rng.between(0, 100),
    }
}

/// The sign of a number; zero too has one now and then if `varied`.
fn sign(rng: &mut Rng, negative: bool, zero: bool, varied: bool) -> &'static str {
    if negative || (zero && varied && rng.once_in(6)) {
        "-"
    } else {
        ""
    }
}

/// How wide to write digits: as they are, or with leading zeros.
fn width(rng: &mut Rng, varied: bool, most: usize) -> usize {
    if varied && rng.once_in(8) {
        1 + rng.below(most)
    } else {
        1
    }
}

/// Spells an INT, `varied` with leading zeros and `-0` at times.
pub fn spell_int(rng: &mut Rng, value: i64, varied: bool) -> String {
    let width = width(rng, varied, 10);
    let sign = sign(rng, value < 0, value == 0, varied);
    format!("{sign}{:0width$}", value.abs())
}

/// One decimal in so many of a varied text is spelled with an exponent.
const EXPONENT_ONCE_IN: usize = 4;

/// Spells a FLOAT, `varied` with zeros before and behind, `-0` and exponents
/// at times.
pub fn spell_float(rng: &mut Rng, value: i64, varied: bool) -> String {
    if !varied || !rng.once_in(EXPONENT_ONCE_IN) {
        return spell_decimal(rng, value, varied);
    }
    let fitting: Vec<(i64, i64)> = (-6..=6)
        .filter_map(|exponent| Some((exponent, significand(value, exponent)?)))
        .collect();
    let &(exponent, significand) = rng.pick(&fitting);
    let decimal = spell_decimal(rng, significand, varied);
    let minus = exponent < 0 || (exponent == 0 && rng.coin());
    decimal + &spell_exponent(minus, exponent.abs())
}

/// What stands before this exponent, in millionths, if the value can be
/// spelled with it. An exponent of 0 always can.
fn significand(value: i64, exponent: i64) -> Option<i64> {
    let power = 10_i64.pow(exponent.unsigned_abs() as u32);
    if exponent < 0 {
        let product = value.checked_mul(power)?;
        (product.abs() <= FLOAT_MOST).then_some(product)
    } else {
        (value % power == 0).then_some(value / power)
    }
}

fn spell_exponent(minus: bool, digit: i64) -> String {
    format!("e{}{digit}", if minus { "-" } else { "" })
}

/// Any exponent of the form, whether or not a value goes with it.
pub fn any_exponent(rng: &mut Rng) -> String {
    let minus = rng.coin();
    spell_exponent(minus, rng.between(0, 6))
}

/// Spells a FLOAT without an exponent.
fn spell_decimal(rng: &mut Rng, value: i64, varied: bool) -> String {
    let width = width(rng, varied, 7);
    let sign = sign(rng, value < 0, value == 0, varied);
    let whole = value.abs() / 1_000_000;
    let digits = format!("{:06}", value.abs() % 1_000_000);
    let needed = digits.trim_end_matches('0').len();
    let shown = if varied && rng.coin() {
        needed + rng.below(7 - needed)
    } else {
        needed
    };
    if shown == 0 {
        format!("{sign}{whole:0width$}")
    } else {
        format!("{sign}{whole:0width$}.{}", &digits[..shown])
    }
}
