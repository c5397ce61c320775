//! Lowest terms by halving and subtracting: their steps, and that they are those
//! by remainders.

mod common;

use common::{changed, MOVEMENT};
use independent::generate::rng::Rng;
use independent::limits;
use independent::movement::{self, Movement};
use independent::play::{sample, Fraction};
use independent::steps::{lowest, of_sample, Lowest, MOST};

/// The lowest terms of a fraction, which both ways give, and the steps to them.
fn reduced(numerator: i64, denominator: i64) -> (i64, i64, u32) {
    let Lowest { fraction, steps } = lowest(numerator, denominator);
    let by_remainders = Fraction::reduced(numerator, denominator);
    assert_eq!(fraction, by_remainders, "{numerator}/{denominator}");
    (fraction.numerator, fraction.denominator, steps)
}

/// Worked by hand. A pair in brackets is any number and the odd one.
#[test]
fn steps_of_small_fractions() {
    let cases = [
        // (0 1): the first is 0 already.
        ((0, 1), (0, 1, 0)),
        // (0 3)
        ((0, 3), (0, 1, 0)),
        // Both halved: 0/1. (0 1)
        ((0, 2), (0, 1, 2)),
        // Both halved twice: 0/3. (0 3)
        ((0, 12), (0, 1, 4)),
        // (1 1) (0 1)
        ((1, 1), (1, 1, 1)),
        // (7 7) (0 7)
        ((7, 7), (1, 1, 1)),
        // (2 1) (1 1) (0 1), whichever of the two is even
        ((1, 2), (1, 2, 2)),
        ((2, 1), (2, 1, 2)),
        // (3 1) (2 1) (1 1) (0 1)
        ((1, 3), (1, 3, 3)),
        ((-1, 3), (-1, 3, 3)),
        // The magnitude is the odd one: (1 3) (2 1) (1 1) (0 1)
        ((3, 1), (3, 1, 3)),
        // (6 3) (3 3) (0 3)
        ((6, 3), (2, 1, 2)),
        ((3, 6), (1, 2, 2)),
        // (6 9) (3 9) (6 3) (3 3) (0 3)
        ((9, 6), (3, 2, 4)),
        // (3 5) (2 3) (1 3) (2 1) (1 1) (0 1)
        ((5, 3), (5, 3, 5)),
        // (5 3) (2 3) (1 3) (2 1) (1 1) (0 1)
        ((3, 5), (3, 5, 5)),
        // Both halved: 1/1. (1 1) (0 1)
        ((2, 2), (1, 1, 3)),
        // Both halved: 3/2. (2 3) (1 3) (2 1) (1 1) (0 1)
        ((6, 4), (3, 2, 6)),
        ((-6, 4), (-3, 2, 6)),
        // Both halved: 2/3. (2 3) and on as before
        ((4, 6), (2, 3, 6)),
        // Both halved twice: 3/2
        ((12, 8), (3, 2, 8)),
        // (7 1) (6 1) (3 1) (2 1) (1 1) (0 1)
        ((1, 7), (1, 7, 5)),
    ];
    for ((numerator, denominator), expected) in cases {
        let found = reduced(numerator, denominator);
        assert_eq!(found, expected, "{numerator}/{denominator}");
    }
}

#[test]
fn steps_of_great_fractions() {
    // Both halved fourteen times.
    assert_eq!(reduced(0, 16_384), (0, 1, 28));
    // 2^58 - 1 and 2^59 - 1. Fourteen halvings; then, of k ones in the sum, k
    // subtractions and k - 1 halvings.
    for (sum, steps) in [
        (288_230_376_151_711_743, 14 + 58 + 57),
        (576_460_752_303_423_487, 14 + 59 + 58),
    ] {
        assert_eq!(reduced(sum, 16_384), (sum, 16_384, steps));
        assert_eq!(reduced(-sum, 16_384), (-sum, 16_384, steps));
    }
    // The greatest sum over the greatest gap is a whole number.
    let sum = 9_999_999_999_999 * 32_766;
    let (numerator, denominator, _) = reduced(sum, 32_766);
    assert_eq!((numerator, denominator), (9_999_999_999_999, 1));
}

#[test]
fn both_ways_agree_on_small_fractions() {
    for denominator in 1..=200 {
        for numerator in -400..=400 {
            let (n, d, steps) = reduced(numerator, denominator);
            assert_eq!(n * denominator, d * numerator);
            assert_eq!(lowest(-numerator, denominator).steps, steps);
        }
    }
}

/// A movement of 32,767 frames whose one bone has `roll` alone, with these keys.
fn with_roll(keys: &str) -> Movement {
    let head = ";TRA\n(Head(traVersion 4.0))(Figure(totalFrame 32767)";
    let text = format!("{head}(bone(roll{keys})))\n");
    movement::read(text.as_bytes(), limits::MOVEMENT_ROOM).unwrap()
}

/// What `roll` has at a frame: numerator, denominator and steps.
fn played(movement: &Movement, frame: i64) -> Option<(i64, i64, u32)> {
    let steps = of_sample(movement, 0, 9, frame);
    let found = sample(movement, 0, 9, frame);
    assert_eq!(steps.is_some(), found.is_some());
    found
        .zip(steps)
        .map(|(found, steps)| (found.numerator, found.denominator, steps))
}

/// The first text is one of the worst that there are.
#[test]
fn texts_whose_samples_take_the_most_steps() {
    let text = ";TRA
(Head(traVersion 4.0))(Figure(totalFrame 32767)(bone
(roll(kf 0 8796629.942276)(kf 32766 0.000013))))
";
    let movement = movement::read(text.as_bytes(), limits::MOVEMENT_ROOM).unwrap();
    let worst = (288_221_580_058_673_153, 32_766, 128);
    assert_eq!(played(&movement, 1), Some(worst));
    let text = changed(text, "totalFrame 32767", "totalFrame 28673");
    let keys = "(kf 0 -9424714.088878)(kf 28672 -0.008615)";
    let text = changed(&text, "(kf 0 8796629.942276)(kf 32766 0.000013)", keys);
    let movement = movement::read(text.as_bytes(), limits::MOVEMENT_ROOM).unwrap();
    let worst = (-270_215_977_642_229_753, 28_672, 128);
    assert_eq!(played(&movement, 1), Some(worst));
}

#[test]
fn samples_and_their_steps() {
    let falling = "(kf 0 9999999.999999)(kf 32766 -9999999.999999)";
    let rising = "(kf 0 0)(kf 16384 9999999.999999)";
    let worked = "(kf 0 0)(kf 3 46.406628)(kf 6 132.590363)";
    let most = 9_999_999_999_999;
    for (keys, frame, expected) in [
        // 0/32766: both halved once.
        (falling, 16_383, (0, 1, 2)),
        (falling, 1, (54_606_666_666_661_206, 5_461, 101)),
        (rising, 1, (most, 16_384, 83)),
        (rising, 8_192, (most, 2, 96)),
        // (3 1) (2 1) (1 1) (0 1)
        ("(kf 0 0)(kf 3 -0.000001)", 1, (-1, 3, 3)),
        (worked, 1, (15_468_876, 1, 33)),
        (worked, 4, (225_403_619, 3, 45)),
        ("(kf 0 0)(kf 8 0.2758)(kf 10 0.724176)", 9, (499_988, 1, 28)),
    ] {
        let found = played(&with_roll(keys), frame);
        assert_eq!(found, Some(expected), "{keys} at {frame}");
    }
}

/// From the last key on, and where a channel is left out.
#[test]
fn samples_that_take_no_steps() {
    let movement = with_roll("(kf 0 0)(kf 4 0.000002)(kf 5 -0.000004)(kf 16384 1)");
    for frame in [16_384, 16_385, 32_766] {
        assert_eq!(played(&movement, frame), Some((1_000_000, 1, 0)));
    }
    // Before it there are some, on a key and for any whole number.
    for (frame, expected) in [
        // 0/4, both halved twice
        (0, (0, 1, 4)),
        // 4/4, both halved twice, and 1 less 1
        (2, (1, 1, 5)),
        // 2/1: (2 1) (1 1) (0 1)
        (4, (2, 1, 2)),
        // 65516/16379: 65516 halved twice, and 16379 less 16379
        (5, (-4, 1, 3)),
    ] {
        assert_eq!(played(&movement, frame), Some(expected), "{frame}");
    }
    for (channel, frame) in [(0, 0), (3, 7), (8, 32_766)] {
        assert!(movement.bones[0].channels[channel].is_empty());
        assert_eq!(of_sample(&movement, 0, channel as i64, frame), Some(0));
    }
}

#[test]
fn no_steps_where_there_is_no_sample() {
    let movement = movement::read(MOVEMENT.as_bytes(), limits::MOVEMENT_ROOM).unwrap();
    for (bone, channel, frame) in [
        (1, 9, 0),
        (-1, 9, 0),
        (0, 10, 0),
        (0, -1, 0),
        (0, 9, 11),
        (0, 9, -1),
    ] {
        assert_eq!(sample(&movement, bone, channel, frame), None);
        assert_eq!(of_sample(&movement, bone, channel, frame), None);
    }
}

/// Sums below 2^59 to try over a gap: of ones, of its multiples, near powers of
/// two, worked back from any end, and any.
fn sums(rng: &mut Rng, gap: i64) -> Vec<i64> {
    let most = (1_i64 << 59) - 1;
    let ones = (1_i64 << (1 + rng.below(59))) - 1;
    let any = rng.between(0, most);
    let mut back = rng.between(0, gap);
    while back <= (most - gap) / 2 {
        back = 2 * back + gap;
    }
    let multiple = gap * rng.between(0, most / gap);
    vec![
        0,
        most,
        ones,
        ones + 1,
        back,
        any,
        any & ones,
        any | ones,
        multiple,
        multiple.max(1) - 1,
        (gap * ones.min(most / gap)).max(gap) - gap + 1,
    ]
}

/// A halving takes a bit of 59 + 15, and each subtraction but the last is
/// followed by one. What is reached is the bound that `step_bound` shows.
#[test]
fn no_fraction_takes_too_many_steps() {
    let bound = (59 + 15) * 2 + 1;
    assert!(bound <= MOST);
    let mut rng = Rng::new(1, 0);
    let mut worst = 0;
    for gap in 1..1 << 15 {
        for sum in sums(&mut rng, gap) {
            let (_, _, steps) = reduced(sum, gap);
            assert!(steps <= bound, "{sum}/{gap}");
            worst = worst.max(steps);
        }
    }
    assert_eq!(worst, 131);
}
