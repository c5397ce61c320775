//! How many steps to lowest terms the samples of generated movements take, and
//! which mistakes in a sample's lowest terms they tell.

use independent::generate::{text, Kind};
use independent::limits;
use independent::movement::{self, Movement};
use independent::play::{unreduced, Fraction, Unreduced};
use independent::steps::{lowest, MOST};
use std::sync::OnceLock;

/// The seed and count of tests/compare.sh.
const SOUND: (u64, u64) = (3, 200);

/// A sum and the gap that it is over.
type Pair = (i64, i64);

/// What the samples of one movement are brought to lowest terms from.
fn between(movement: &Movement) -> Vec<Pair> {
    let mut pairs = Vec::new();
    for bone in 0..movement.bones.len() as i64 {
        for channel in 0..movement::CHANNELS as i64 {
            for frame in 0..movement.total_frames {
                let found = unreduced(movement, bone, channel, frame);
                if let Unreduced::Between { sum, gap } = found.unwrap() {
                    pairs.push((sum, gap));
                }
            }
        }
    }
    pairs
}

/// The same of each movement that is played.
fn compared() -> &'static [Vec<Pair>] {
    static COMPARED: OnceLock<Vec<Vec<Pair>>> = OnceLock::new();
    COMPARED.get_or_init(|| {
        let (seed, count) = SOUND;
        let texts = (0..count).map(|index| text(Kind::SoundMovements, seed, index));
        texts
            .map(|text| between(&movement::read(&text, limits::MOVEMENT_ROOM).unwrap()))
            .collect()
    })
}

fn steps(&(sum, gap): &Pair) -> u32 {
    lowest(sum, gap).steps
}

#[test]
fn samples_take_few_steps_and_many() {
    for (least, samples, movements) in [
        (20, 100_000, 100),
        (40, 100_000, 100),
        (60, 100_000, 100),
        (80, 50_000, 20),
        (100, 5_000, 5),
        (110, 100, 2),
        (120, 1, 1),
    ] {
        let count = |pairs: &Vec<Pair>| pairs.iter().filter(|pair| steps(pair) >= least).count();
        let counts: Vec<usize> = compared().iter().map(count).collect();
        let found: usize = counts.iter().sum();
        let within = counts.iter().filter(|&&count| count > 0).count();
        assert!(found >= samples, "{least}: {found} samples");
        assert!(within >= movements, "{least}: {within} movements");
    }
    assert!(compared().iter().flatten().all(|pair| steps(pair) <= MOST));
}

#[test]
fn both_ways_agree_on_every_sample() {
    for &(sum, gap) in compared().iter().flatten() {
        assert_eq!(lowest(sum, gap).fraction, Fraction::reduced(sum, gap));
    }
}

/// What is divided out of a sum and its gap.
type Factor = fn(i64, i64) -> i64;

fn right(sum: i64, gap: i64) -> i64 {
    gap / Fraction::reduced(sum, gap).denominator
}

/// How many of the movements that are compared tell a mistake.
fn told_by(mistake: Factor) -> usize {
    let told = |&(sum, gap): &Pair| mistake(sum, gap) != right(sum, gap);
    let movements = compared().iter();
    movements.filter(|pairs| pairs.iter().any(told)).count()
}

fn odd_part(number: i64) -> i64 {
    number >> number.trailing_zeros()
}

#[test]
fn mistakes_in_the_factor_are_told() {
    assert_eq!(told_by(right), 0);
    let mistakes: [(&str, Factor); 5] = [
        ("no factor", |_, _| 1),
        ("no twos", |sum, gap| odd_part(right(sum, gap))),
        ("one two", |sum, gap| {
            let factor = right(sum, gap);
            odd_part(factor) << factor.trailing_zeros().min(1)
        }),
        ("twos only", |sum, gap| {
            let factor = right(sum, gap);
            factor / odd_part(factor)
        }),
        ("none of a zero", |sum, gap| match sum {
            0 => 1,
            _ => right(sum, gap),
        }),
    ];
    for (name, mistake) in mistakes {
        let count = told_by(mistake);
        assert!(count >= 20, "{name}: {count}");
    }
}
