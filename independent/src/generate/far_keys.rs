//! Movements whose keys lie far apart, mostly with a large value and a small:
//! their samples take many steps to lowest terms.

use super::movement::{of_size, Key, Movement};
use super::number::{any_float, FLOAT_MOST};
use super::rng::Rng;

/// Frames from one key to the next: powers of two, odd numbers, and products of
/// both. Every frame is played, so they are not the most there can be.
const GAPS: [i64; 8] = [256, 1_023, 1_024, 2_048, 3_584, 4_032, 4_095, 4_096];

/// A movement of one bone with one to three such channels.
pub fn far_keys(rng: &mut Rng) -> Movement {
    let gap = *rng.pick(&GAPS);
    let start = rng.between(0, 2);
    let total_frames = start + gap + rng.between(1, 3);
    let mut made = of_size(rng, total_frames, 1);
    for _ in 0..1 + rng.below(3) {
        made.bones[0].channels[rng.below(10)] = keys(rng, start, gap);
    }
    made
}

/// Two keys so far apart, behind one at frame 0 if they do not begin there.
fn keys(rng: &mut Rng, start: i64, gap: i64) -> Vec<Key> {
    let sum = if rng.once_in(4) {
        rng.between(0, FLOAT_MOST * gap)
    } else {
        long_sum(rng, gap)
    };
    let mut values = values(sum, gap);
    if rng.coin() {
        values.reverse();
    }
    let sign = *rng.pick(&[1, -1]);
    let mut keys = vec![(start, sign * values[0]), (start + gap, sign * values[1])];
    if start > 0 {
        keys.insert(0, (0, any_float(rng)));
    }
    keys
}

/// A sum that takes many steps. It is worked back from the end: each
/// subtraction is followed by one halving only, up to the greatest sum.
fn long_sum(rng: &mut Rng, gap: i64) -> i64 {
    let odd = gap >> gap.trailing_zeros();
    let mut sum = 1 + 2 * rng.between(0, odd / 2);
    while 2 * sum + odd <= FLOAT_MOST * gap {
        sum = 2 * sum + odd;
    }
    sum
}

/// The values of two keys that have this sum one frame behind the first.
fn values(sum: i64, gap: i64) -> [i64; 2] {
    let first = FLOAT_MOST.min(sum / (gap - 1));
    [first, sum - first * (gap - 1)]
}
