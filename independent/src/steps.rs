//! Lowest terms by halving and subtracting alone, and how many such steps they
//! take.
//!
//! A step is one halving of one number or one subtraction. Tests of parity,
//! comparisons and counting are none, nor are the two divisions by the common
//! factor once it is known.

use crate::movement::Movement;
use crate::play::{unreduced, Fraction, Unreduced};

/// The most steps that a sample may take.
pub const MOST: u32 = 200;

/// A fraction in lowest terms, and the steps that brought it there.
#[derive(Clone, Copy, Debug, PartialEq, Eq)]
pub struct Lowest {
    pub fraction: Fraction,
    pub steps: u32,
}

/// Brings a fraction to lowest terms; `denominator` is above 0.
pub fn lowest(numerator: i64, denominator: i64) -> Lowest {
    let (mut magnitude, mut gap) = (numerator.abs(), denominator);
    let mut steps = 0;
    while is_even(magnitude) && is_even(gap) {
        (magnitude, gap) = (magnitude / 2, gap / 2);
        steps += 2;
    }
    let (factor, more) = if is_even(magnitude) {
        odd_factor(magnitude, gap)
    } else {
        odd_factor(gap, magnitude)
    };
    Lowest {
        fraction: Fraction {
            numerator: numerator.signum() * (magnitude / factor),
            denominator: gap / factor,
        },
        steps: steps + more,
    }
}

/// The common factor of any number and an odd one, and the steps to it.
fn odd_factor(mut any: i64, mut odd: i64) -> (i64, u32) {
    let mut steps = 0;
    while any != 0 {
        (any, odd) = if is_even(any) {
            (any / 2, odd)
        } else if any < odd {
            (odd - any, any)
        } else {
            (any - odd, odd)
        };
        steps += 1;
    }
    (odd, steps)
}

fn is_even(number: i64) -> bool {
    number & 1 == 0
}

/// The steps that a sample takes. From the last key on and where the channel is
/// left out there is nothing to bring to lowest terms; on any other key it is the
/// key's value times the gap, over the gap.
pub fn of_sample(movement: &Movement, bone: i64, channel: i64, frame: i64) -> Option<u32> {
    Some(match unreduced(movement, bone, channel, frame)? {
        Unreduced::Whole(_) => 0,
        Unreduced::Between { sum, gap } => lowest(sum, gap).steps,
    })
}
