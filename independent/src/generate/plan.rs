//! What damage a text gets: to its lists, its tokens and its bytes.

use super::figure::Figure;
use super::movement::Movement;
use super::piece::Piece;
use super::render::{any_style, render, Style};
use super::rng::Rng;
use super::{bone_damage, bytes, figure, figure_damage, figure_limits, movement};
use super::{movement_damage, piece_damage};
use crate::limits;

#[derive(Clone, Copy, Debug, PartialEq, Eq)]
enum Damage {
    Lists,
    Tokens,
    /// Of movements only.
    Bone,
    Number,
    Exponent,
    Version,
    String,
    Bytes,
    UnendedString,
    FirstLine,
    Length,
}

/// One to three kinds of damage; often more than one to the lists.
fn plan(rng: &mut Rng) -> Vec<Damage> {
    let count = *rng.pick(&[1, 1, 1, 1, 1, 1, 2, 2, 3]);
    let mut plan: Vec<Damage> = (0..count).map(|_| one(rng)).collect();
    if plan[0] == Damage::Lists && rng.once_in(3) {
        plan = vec![Damage::Lists; 2 + rng.below(2)];
    }
    plan
}

/// The same for a movement. One in three of its damages to tokens is to the
/// chunks of a bone.
fn movement_plan(rng: &mut Rng) -> Vec<Damage> {
    let mut plan = plan(rng);
    for damage in plan.iter_mut().filter(|damage| **damage == Damage::Tokens) {
        if rng.once_in(3) {
            *damage = Damage::Bone;
        }
    }
    plan
}

/// One kind of damage: eight in a hundred are to an exponent.
fn one(rng: &mut Rng) -> Damage {
    match rng.below(100) {
        0..=34 => Damage::Lists,
        35..=55 => Damage::Tokens,
        56..=67 => Damage::Number,
        68..=75 => Damage::Exponent,
        76..=78 => Damage::Version,
        79..=84 => Damage::String,
        85..=94 => Damage::Bytes,
        95 => Damage::UnendedString,
        96..=98 => Damage::FirstLine,
        _ => Damage::Length,
    }
}

/// Once in so many damaged texts is one at the limits.
const LARGE: usize = 20;

pub fn damaged_figure(rng: &mut Rng) -> Vec<u8> {
    if rng.once_in(LARGE) {
        return large_figure(rng);
    }
    let plan = plan(rng);
    let sizes = figure::small_sizes(rng);
    let style = any_style(rng);
    let figure = figure::of_sizes(rng, sizes, style, true);
    figure_by_plan(rng, figure, &plan)
}

/// The text of this figure, damaged.
pub fn damage_figure(rng: &mut Rng, figure: Figure) -> Vec<u8> {
    let plan = plan(rng);
    figure_by_plan(rng, figure, &plan)
}

fn figure_by_plan(rng: &mut Rng, mut figure: Figure, plan: &[Damage]) -> Vec<u8> {
    for _ in plan.iter().filter(|damage| **damage == Damage::Lists) {
        figure_damage::damage(rng, &mut figure);
    }
    let pieces = figure.pieces(rng);
    damaged(rng, b";BAC", pieces, figure.style, plan)
}

/// The text of a figure at the limits, or past them.
pub fn large_figure(rng: &mut Rng) -> Vec<u8> {
    let room = limits::FIGURE_ROOM;
    let (mut figure, damaged_once_in) = match rng.below(5) {
        0 => {
            let total = room + *rng.pick(&[0, 1, 1, 2, 500]);
            (figure_limits::of_total(rng, total), 3)
        }
        _ => (figure_limits::at_limits(rng), 4),
    };
    if rng.once_in(damaged_once_in) {
        figure_damage::damage(rng, &mut figure);
    }
    figure.text(rng)
}

pub fn damaged_movement(rng: &mut Rng) -> Vec<u8> {
    if rng.once_in(LARGE) {
        return large_movement(rng);
    }
    let plan = movement_plan(rng);
    let movement = movement::small(rng);
    movement_by_plan(rng, movement, &plan)
}

/// The text of a movement at the limits, or past them.
pub fn large_movement(rng: &mut Rng) -> Vec<u8> {
    let past = *rng.pick(&[0, 1, 1, 2]);
    let mut movement = movement::at_limits(rng, past);
    if rng.once_in(3) {
        movement_damage::damage(rng, &mut movement);
    }
    movement.text(rng)
}

/// The text of this movement, damaged.
pub fn damage_movement(rng: &mut Rng, movement: Movement) -> Vec<u8> {
    let plan = movement_plan(rng);
    movement_by_plan(rng, movement, &plan)
}

fn movement_by_plan(rng: &mut Rng, mut movement: Movement, plan: &[Damage]) -> Vec<u8> {
    for _ in plan.iter().filter(|damage| **damage == Damage::Lists) {
        movement_damage::damage(rng, &mut movement);
    }
    let pieces = movement.pieces(rng);
    damaged(rng, b";TRA", pieces, movement.style, plan)
}

/// Damages tokens, renders them, then damages bytes.
fn damaged(
    rng: &mut Rng,
    mark: &[u8],
    mut pieces: Vec<Piece>,
    style: Style,
    plan: &[Damage],
) -> Vec<u8> {
    for damage in plan {
        match damage {
            Damage::Tokens => piece_damage::damage(rng, &mut pieces),
            Damage::Bone => bone_damage::damage(rng, &mut pieces),
            Damage::Number => piece_damage::damage_number(rng, &mut pieces),
            Damage::Exponent => piece_damage::damage_exponent(rng, &mut pieces),
            Damage::Version => piece_damage::damage_version(rng, &mut pieces),
            Damage::String => piece_damage::damage_string(rng, &mut pieces),
            _ => {}
        }
    }
    let mut text = render(rng, mark, &pieces, style);
    for damage in plan {
        match damage {
            Damage::Bytes => bytes::damage(rng, &mut text),
            Damage::UnendedString => bytes::unended_string(rng, &mut text),
            _ => {}
        }
    }
    if plan.contains(&Damage::FirstLine) && text.len() > 4 {
        bytes::first_line(rng, &mut text);
    }
    if plan.contains(&Damage::Length) {
        bytes::length(rng, &mut text);
    }
    text
}
