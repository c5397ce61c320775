//! The most steps that any sample takes, found by going over all that could.
//!
//! Once two numbers are odd and have no common factor, a round takes the
//! greater x and the smaller y to w = (x - y) / k and y, where k = 2^v, in 1 + v
//! steps, down to 1 and 1, which take one step more. The size of a pair is
//! (x + y)^2 min(x, y). A round divides it by 2 k at least:
//!
//!     2 k (w + y)^2 min(w, y) <= (k w + 2 y)^2 y
//!
//! With u = w / y, the right less the left is y^3 times (k - 2) (k u^2 - 2) if
//! u >= 1; else it is y^3 times 4 (1 + u)^2 (1 - u) if k = 2, and y^3 times
//! k (k - 4) u^2 + 2 k u (1 - u^2) + 4 if k >= 4. The size of 1 and 1 is 4, so
//! 2^(steps + 1) is at most the size. For any sum a = x 2^q above 0 and gap
//! d = y 2^p, which take p + q halvings more, it follows that
//!
//!     2^(steps + 1) <= d (a + d)^2
//!
//! since 2^q (x + y)^2 <= (x 2^q + y)^2 if x >= y, and (x + y)^2 <= 4 y^2 else.
//! Below 2^59 and 2^15 that leaves at most 131 steps, which are reached. Real
//! sums are at most 9,999,999,999,999 d over a gap of at most 32,766, which
//! leaves 130. Working back from 1 and 1, with the size as the bound of what is
//! still to come, finds all that take 128; none takes more.

use independent::generate::rng::Rng;
use independent::steps::lowest;
use std::collections::BTreeSet;

/// The greatest value of a key either way, in millionths.
const VALUE: i64 = 9_999_999_999_999;
/// The most frames from one key to the next.
const GAP: i64 = 32_766;

/// What both laws take a binary logarithm of is past 128 bits; so much is more
/// than what rounding can add or take away.
const ROUNDING: f64 = 1e-6;

/// The binary logarithm of (x + y)^2 y, the size of a pair if y is the smaller.
fn size(x: i64, y: i64) -> f64 {
    2.0 * ((x + y) as f64).log2() + (y as f64).log2()
}

/// The law of a round, for numbers small enough to be multiplied out.
#[test]
fn a_round_divides_the_size_by_its_steps() {
    for halvings in 1..24 {
        for w in (1..300_i128).step_by(2) {
            for y in (1..300_i128).step_by(2) {
                let after = (w + y).pow(2) * w.min(y);
                let before = ((w << halvings) + 2 * y).pow(2) * y;
                assert!(after << (1 + halvings) <= before, "{w} {y} {halvings}");
            }
        }
    }
}

#[test]
fn the_steps_are_at_most_the_size() {
    for gap in 1..300_i64 {
        for sum in 1..600_i64 {
            let size = i128::from(gap) * i128::from(sum + gap).pow(2);
            let steps = lowest(sum, gap).steps;
            assert!(2_i128 << steps <= size, "{sum}/{gap}");
        }
    }
    let mut rng = Rng::new(2, 0);
    for _ in 0..200_000 {
        let [sum, gap] = [59, 15].map(|bits| {
            let end = 1 << rng.between(1, bits);
            rng.between(1, end - 1)
        });
        let steps = f64::from(lowest(sum, gap).steps);
        assert!(steps + 1.0 <= size(sum, gap) + ROUNDING, "{sum}/{gap}");
    }
}

/// The law leaves less than 132 steps below 2^59 and 2^15.
#[test]
fn the_most_steps_of_59_bits_over_15() {
    let (sum, gap) = ((1_i128 << 59) - 1, (1_i128 << 15) - 1);
    // The size over 2^32, rounded up: 2^133 is past 128 bits.
    let size = gap * (((sum + gap).pow(2) >> 32) + 1);
    assert!(size < 1 << (133 - 32));
    assert_eq!(lowest((1 << 59) - 1, 1 << 14).steps, 131);
}

/// A sum, its gap and its steps.
type Found = (i64, i64, u32);

/// The sums and gaps of so many steps or more.
struct Search {
    wanted: u32,
    found: BTreeSet<Found>,
}

impl Search {
    fn new(wanted: u32) -> Search {
        let found = BTreeSet::new();
        let mut search = Search { wanted, found };
        search.from(1, 1, 1);
        search
    }

    /// Goes over all pairs of odd numbers that come to this one, which takes so
    /// many steps, as long as they can still lead to what is wanted.
    fn from(&mut self, one: i64, other: i64, steps: u32) {
        for (x, y) in [(one, other), (other, one)] {
            self.note(x, y, steps);
            for halvings in 1.. {
                let before = (x << halvings) + y;
                if before > VALUE * GAP || y > GAP {
                    break;
                }
                let steps = steps + 1 + halvings;
                if self.can_lead(before, y, steps) {
                    self.from(before, y, steps);
                }
            }
        }
    }

    fn can_lead(&self, x: i64, y: i64, steps: u32) -> bool {
        let more = size(VALUE * GAP, GAP) - size(x, y);
        f64::from(steps) + more + ROUNDING >= f64::from(self.wanted)
    }

    /// The sums x 2^q over gaps y 2^p, which take p + q steps more.
    fn note(&mut self, x: i64, y: i64, steps: u32) {
        for p in (0..15).take_while(|p| y << p <= GAP) {
            let gap = y << p;
            for q in (0..59).take_while(|q| x << q <= VALUE * gap) {
                if steps + p + q >= self.wanted {
                    self.found.insert((x << q, gap, steps + p + q));
                }
            }
        }
    }
}

/// Twelve take 128. A common factor of 3 or more would make their gaps too
/// great, so they are all there are.
#[test]
fn the_most_steps_of_a_sample() {
    assert!(Search::new(129).found.is_empty());
    let worst = (3..=14).map(|bits| {
        let odd = (1 << bits) - 1;
        let gap = odd << (15 - bits);
        let sum = ((2 * odd + 1) << (57 - bits)) - odd;
        (sum, gap, 128)
    });
    let worst: BTreeSet<Found> = worst.collect();
    assert_eq!(Search::new(128).found, worst);
    assert_eq!(worst.first(), Some(&(270_215_977_642_229_753, 28_672, 128)));
    assert_eq!(worst.last(), Some(&(288_221_580_058_673_153, 32_766, 128)));
    for (sum, gap, steps) in worst {
        assert!(sum <= VALUE * gap && gap <= GAP);
        assert_eq!(lowest(sum, gap).steps, steps);
    }
}
