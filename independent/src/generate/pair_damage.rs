//! Damage to pairs: refusals 18, 19 and 20, damage to either text, and to the
//! head of the figure's record.

use super::movement::any_lines;
use super::pair::{some_name, sound, Pair};
use super::piece::string_byte;
use super::plan;
use super::rng::Rng;
use crate::limits;
use crate::many;

pub fn damaged(rng: &mut Rng) -> Vec<u8> {
    let mut pair = sound(rng);
    match rng.below(22) {
        0..=8 => {
            faults(rng, &mut pair);
            pair.text(rng)
        }
        9..=13 => one_text_or_both(rng, pair),
        14 | 15 => {
            faults(rng, &mut pair);
            one_text_or_both(rng, pair)
        }
        _ => {
            if rng.once_in(4) {
                faults(rng, &mut pair);
            }
            let figure = pair.figure.text(rng);
            let movement = pair.movement.text(rng);
            record(rng, figure, movement)
        }
    }
}

/// One, two or all of the faults 18, 19 and 20.
const FAULTS: [&[u8]; 11] = [
    &[18],
    &[18],
    &[19],
    &[19],
    &[20],
    &[20],
    &[18, 19],
    &[18, 20],
    &[19, 20],
    &[19, 20],
    &[18, 19, 20],
];

fn faults(rng: &mut Rng, pair: &mut Pair) {
    for number in *rng.pick(&FAULTS) {
        match number {
            18 => counts(rng, pair),
            19 => names(rng, pair),
            _ => groups(rng, pair),
        }
    }
}

/// The movement has more bones than the figure, or fewer.
fn counts(rng: &mut Rng, pair: &mut Pair) {
    let bones = &mut pair.movement.bones;
    let row = rng.below(bones.len());
    match rng.below(4) {
        0 if bones.len() > 1 => {
            bones.remove(row);
        }
        1 if bones.len() > 1 => bones.truncate(1 + rng.below(bones.len() - 1)),
        2 => {
            let more = 1 + rng.below(3);
            bones.resize(bones.len() + more, bones[row].clone());
        }
        _ => bones.insert(row, bones[row].clone()),
    }
}

/// Both texts name a bone, and not alike; at times more than one.
fn names(rng: &mut Rng, pair: &mut Pair) {
    let rows = pair.figure.bones.len().min(pair.movement.bones.len());
    for _ in 0..*rng.pick(&[1, 1, 1, 2, 3]) {
        let row = rng.below(rows);
        let ours = &mut pair.figure.bones[row].name;
        let theirs = &mut pair.movement.bones[row].name;
        let one = match ours.take() {
            Some(name) if !name.is_empty() => name,
            _ => some_name(rng, pair.figure.varied),
        };
        let other = another_name(rng, &one);
        let (figure_name, movement_name) = if rng.coin() {
            (one, other)
        } else {
            (other, one)
        };
        *ours = Some(figure_name);
        *theirs = Some(movement_name);
    }
}

/// Another name that is not empty: one byte is changed, there is one more or
/// one fewer, or all of it is another.
fn another_name(rng: &mut Rng, name: &[u8]) -> Vec<u8> {
    let mut other = name.to_vec();
    let last = name.len() - 1;
    match rng.below(6) {
        0 => other[0] = another_byte(rng, name[0]),
        1 => other[last] = another_byte(rng, name[last]),
        2 => {
            let at = rng.below(name.len());
            other[at] = another_byte(rng, name[at]);
        }
        3 if name.len() < limits::STRING_BYTES => other.push(string_byte(rng)),
        4 if last > 0 => other.truncate(last),
        _ => {
            while other == name {
                other = some_name(rng, false);
            }
        }
    }
    other
}

/// Another byte of a string; of a letter often the same in the other case.
fn another_byte(rng: &mut Rng, byte: u8) -> u8 {
    if byte.is_ascii_alphabetic() && rng.coin() {
        return byte ^ 0x20;
    }
    loop {
        let other = string_byte(rng);
        if other != byte {
            return other;
        }
    }
}

/// A pattern line names a group that the figure has not; at times more do.
fn groups(rng: &mut Rng, pair: &mut Pair) {
    let groups = pair.groups();
    let known = groups as i64;
    let total_frames = pair.movement.total_frames;
    let lines = pair.movement.patterns.get_or_insert_default();
    if lines.len() < 2 {
        *lines = any_lines(rng, 2, total_frames, groups + 1);
    }
    for _ in 0..*rng.pick(&[1, 2, 3]) {
        let row = rng.below(lines.len());
        lines[row].1 = *rng.pick(&[known, known, known + 1, i64::from(i32::MAX)]);
    }
}

/// Damages the figure, the movement or both.
fn one_text_or_both(rng: &mut Rng, pair: Pair) -> Vec<u8> {
    let which = rng.below(3);
    let figure = match which {
        1 => pair.figure.text(rng),
        _ if rng.once_in(6) => plan::large_figure(rng),
        _ => plan::damage_figure(rng, pair.figure),
    };
    let movement = match which {
        0 => pair.movement.text(rng),
        _ if rng.once_in(6) => plan::large_movement(rng),
        _ => plan::damage_movement(rng, pair.movement),
    };
    many::pair(&figure, &movement)
}

/// Damages the head, what it says of the length, or the length itself. The
/// lengths often, so that a few hundred pairs meet them all.
fn record(rng: &mut Rng, figure: Vec<u8>, movement: Vec<u8>) -> Vec<u8> {
    match rng.below(9) {
        0 | 1 => head(rng, &many::pair(&figure, &movement)),
        2..=4 => {
            let rest = [figure.as_slice(), &movement].concat();
            let length = wrong_length(rng, figure.len(), rest.len());
            of_length(length, &rest)
        }
        _ => long_texts(rng, figure, movement),
    }
}

/// A pair whose head says this length.
fn of_length(length: usize, rest: &[u8]) -> Vec<u8> {
    [format!("{length:08}\n").as_bytes(), rest].concat()
}

/// A head that is not eight digits and a line feed.
fn head(rng: &mut Rng, pair: &[u8]) -> Vec<u8> {
    let mut text = pair.to_vec();
    match rng.below(8) {
        0 => text[rng.below(8)] = *rng.pick(b" +-./:ax\0\xb0\xff\n"),
        1 => text[0] = *rng.pick(b" +-"),
        2 => text[8] = *rng.pick(b"\r \t0;\0\x0b"),
        3 => text.insert(8, *rng.pick(b"\r 0")),
        4 => {
            text.remove(8);
        }
        5 => {
            text.remove(0);
        }
        6 => text.insert(0, *rng.pick(b"0 \n")),
        // The input ends in the head or behind it.
        _ => text.truncate(rng.below(11)),
    }
    text
}

/// Past the input's end, or another place in it than the figure's end.
fn wrong_length(rng: &mut Rng, figure: usize, rest: usize) -> usize {
    match rng.below(10) {
        0 | 1 => rest + *rng.pick(&[1, 1, 2, 9, 10, 70_000]),
        2 | 3 => *rng.pick(&[99_999_999, 65_537, 131_074, 131_075, 200_000]),
        4 | 5 => limits::TEXT_BYTES,
        // The figure is cut, and its end stands before the movement.
        6 => figure - 1 - rng.below(9),
        // The movement's first bytes stand in the figure.
        7 => figure + 1 + rng.below(9),
        8 => *rng.pick(&[0, 1, 4, rest - 1, rest]),
        _ => rng.below(rest + 1),
    }
}

/// Texts around and far beyond the most bytes, filled up with blanks.
fn long_texts(rng: &mut Rng, mut figure: Vec<u8>, mut movement: Vec<u8>) -> Vec<u8> {
    const MOST: usize = limits::TEXT_BYTES;
    const LENGTHS: [usize; 12] = [
        MOST,
        MOST + 1,
        MOST + 2,
        2 * MOST,
        2 * MOST + 1,
        2 * MOST + 2,
        2 * MOST + 3,
        2 * MOST + 9,
        2 * MOST + 10,
        2 * MOST + 11,
        200_000,
        300_000,
    ];
    let fill = |text: &mut Vec<u8>, length: usize| {
        if text.len() < length {
            text.resize(length, b' ');
        }
    };
    let length = *rng.pick(&LENGTHS);
    match rng.below(6) {
        0 | 1 => fill(&mut figure, length),
        2 | 3 => fill(&mut movement, length),
        4 => {
            fill(&mut figure, MOST);
            fill(&mut movement, MOST + rng.below(2));
        }
        // As long as that, and the head says more still.
        _ => {
            fill(&mut figure, length);
            let past = 1 + movement.len() + rng.below(10);
            let rest = [figure.as_slice(), &movement].concat();
            return of_length(figure.len() + past, &rest);
        }
    }
    many::pair(&figure, &movement)
}
