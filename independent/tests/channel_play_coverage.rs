//! What the generated texts cover of samples of channels left out, and which
//! mistakes of a player they tell.

use independent::generate::{text, Kind};
use independent::limits;
use independent::movement::{self, Movement};
use independent::play::sample;
use std::sync::OnceLock;

/// The seed and count of tests/compare.sh.
const SOUND: (u64, u64) = (3, 200);

/// 004's standing pose, in units.
const STANDING: [i64; 10] = [0, 0, 0, 100, 100, 100, 0, 0, 1, 0];

/// The movements that the samples are compared on.
fn compared() -> &'static [Movement] {
    static COMPARED: OnceLock<Vec<Movement>> = OnceLock::new();
    COMPARED.get_or_init(|| {
        let (seed, count) = SOUND;
        let texts = (0..count).map(|index| text(Kind::SoundMovements, seed, index));
        texts
            .map(|text| movement::read(&text, limits::MOVEMENT_ROOM).unwrap())
            .collect()
    })
}

/// A place of a sample: bone, channel and frame.
type Place = (usize, usize, i64);

/// The places of channels that are left out, at the first two frames and the
/// last.
fn left_out(movement: &Movement) -> Vec<Place> {
    let last = movement.total_frames - 1;
    let frames = [0, last.min(1), last];
    let mut places = Vec::new();
    for (bone, each) in movement.bones.iter().enumerate() {
        for channel in (0..10).filter(|&channel| each.channels[channel].is_empty()) {
            places.extend(frames.map(|frame| (bone, channel, frame)));
        }
    }
    places
}

/// What the player says, as a numerator over 1.
fn played(movement: &Movement, (bone, channel, frame): Place) -> Option<i64> {
    let found = sample(movement, bone as i64, channel as i64, frame)?;
    assert_eq!(found.denominator, 1);
    Some(found.numerator)
}

#[test]
fn each_channel_is_left_out_of_movements_that_are_played() {
    for channel in 0..10 {
        let lacks = |movement: &&Movement| {
            let mut places = left_out(movement).into_iter();
            places.any(|place| place.1 == channel && place.2 > 0)
        };
        let count = compared().iter().filter(lacks).count();
        assert!(count >= 40, "{channel}: {count}");
    }
}

/// What a channel that is left out has, in millionths.
type Answer = fn(&Movement, Place) -> Option<i64>;

fn right(_: &Movement, (_, channel, _): Place) -> Option<i64> {
    Some(1_000_000 * STANDING[channel])
}

/// How many of the movements that are compared tell a mistake.
fn told_by(mistake: Answer) -> usize {
    let told = |movement: &&Movement| {
        let mut places = left_out(movement).into_iter();
        places.any(|place| mistake(movement, place) != played(movement, place))
    };
    compared().iter().filter(told).count()
}

fn are_told(mistakes: &[(&str, Answer)]) {
    assert_eq!(told_by(right), 0);
    for &(name, mistake) in mistakes {
        let count = told_by(mistake);
        assert!(count >= 40, "{name}: {count}");
    }
}

/// The right value but for one channel, in units.
fn but(of: usize, units: i64, (_, channel, _): Place) -> Option<i64> {
    let standing = STANDING[channel];
    Some(1_000_000 * if channel == of { units } else { standing })
}

#[test]
fn mistakes_in_a_default_are_told() {
    are_told(&[
        ("0 throughout", |_, _| Some(0)),
        ("100 throughout", |_, _| Some(100_000_000)),
        ("translate.x 100", |_, place| but(0, 100, place)),
        ("translate.z 1", |_, place| but(2, 1, place)),
        ("scale.x 0", |_, place| but(3, 0, place)),
        ("scale.y 1", |_, place| but(4, 1, place)),
        ("scale.z 0", |_, place| but(5, 0, place)),
        ("rotate.x 1", |_, place| but(6, 1, place)),
        ("rotate.y 1", |_, place| but(7, 1, place)),
        ("rotate.z 0", |_, place| but(8, 0, place)),
        ("rotate.z -1", |_, place| but(8, -1, place)),
        ("roll 1", |_, place| but(9, 1, place)),
        ("units for millionths", |_, (_, channel, _)| {
            Some(STANDING[channel])
        }),
    ]);
}

#[test]
fn mistakes_in_the_frames_are_told() {
    are_told(&[
        ("no sample", |_, _| None),
        ("none behind frame 0", |movement, place| {
            right(movement, place).filter(|_| place.2 == 0)
        }),
        ("0 behind frame 0", |movement, place| match place.2 {
            0 => right(movement, place),
            _ => Some(0),
        }),
        ("none at the last frame", |movement, place| {
            right(movement, place).filter(|_| place.2 + 1 < movement.total_frames)
        }),
    ]);
}

/// The pair of such a channel names row 0, but no key is its own.
#[test]
fn keys_of_other_channels_are_told() {
    are_told(&[
        ("of row 0", |movement, place| {
            let key = movement.channels().flatten().next();
            key.map(|key| key.value).or(right(movement, place))
        }),
        ("of the channel before it", |movement, place| {
            let mut before = movement.bones[place.0].channels[..place.1].iter();
            let key = before.rfind(|keys| !keys.is_empty());
            key.map(|keys| keys[0].value).or(right(movement, place))
        }),
        ("of the bone before its own", |movement, place| {
            let before = &movement.bones[place.0.saturating_sub(1)];
            let key = before.channels[place.1].first();
            key.map(|key| key.value).or(right(movement, place))
        }),
    ]);
}
