//! Pairs to write: a figure and a movement; sound ones load together.

use super::figure::{self, Figure, Sizes};
use super::movement::{self, Movement};
use super::piece::name_of;
use super::render::{any_style, Style};
use super::rng::Rng;
use crate::limits;
use crate::many;

#[derive(Clone, Debug)]
pub struct Pair {
    pub figure: Figure,
    pub movement: Movement,
}

impl Pair {
    pub fn text(&self, rng: &mut Rng) -> Vec<u8> {
        let figure = self.figure.text(rng);
        many::pair(&figure, &self.movement.text(rng))
    }

    /// How many groups the figure has.
    pub fn groups(&self) -> usize {
        self.figure.groups.as_ref().map_or(0, Vec::len)
    }
}

/// A sound pair: most are small, some have a list of the movement at its most.
pub fn sound(rng: &mut Rng) -> Pair {
    if rng.once_in(40) {
        large(rng)
    } else {
        small(rng)
    }
}

/// A sound pair with most lists at their most, of few frames.
pub fn full(rng: &mut Rng) -> Pair {
    let sizes = Sizes {
        textures: limits::TEXTURES,
        colours: limits::COLOURS,
        materials: limits::MATERIALS,
        bones: limits::BONES,
        polygons: 300,
        groups: limits::GROUPS,
        ..figure::small_sizes(rng)
    };
    let figure = figure::of_sizes(rng, sizes, Style::Compact, false);
    let movement = movement::short(rng);
    fitted(rng, figure, movement, limits::PATTERNS)
}

fn small(rng: &mut Rng) -> Pair {
    let sizes = Sizes {
        groups: rng.below(5),
        ..figure::small_sizes(rng)
    };
    let style = any_style(rng);
    let figure = figure::of_sizes(rng, sizes, style, true);
    let mut movement = movement::small(rng);
    movement.bones = movement::any_bones(rng, sizes.bones, movement.total_frames);
    // Enough lines that those of a group often stand out of order, or none.
    let lines = if rng.once_in(8) { 0 } else { rng.below(20) };
    fitted(rng, figure, movement, lines)
}

/// The movement's bones, keys or pattern lines are at their most.
fn large(rng: &mut Rng) -> Pair {
    let movement = movement::at_limits(rng, 0);
    let sizes = Sizes {
        bones: movement.bones.len(),
        groups: *rng.pick(&[0, 1, 4, limits::GROUPS]),
        ..figure::small_sizes(rng)
    };
    let figure = figure::of_sizes(rng, sizes, Style::Compact, false);
    let lines = movement.patterns.as_ref().map_or(0, Vec::len);
    fitted(rng, figure, movement, lines)
}

/// Gives the bones of both texts names that go together, and the movement so
/// many pattern lines of the figure's groups, if it has any.
fn fitted(rng: &mut Rng, figure: Figure, movement: Movement, count: usize) -> Pair {
    let mut pair = Pair { figure, movement };
    for row in 0..pair.figure.bones.len() {
        let [ours, theirs] = names(rng, pair.figure.varied);
        pair.figure.bones[row].name = ours;
        pair.movement.bones[row].name = theirs;
    }
    let groups = pair.groups();
    let count = if groups == 0 { 0 } else { count };
    let lines = movement::any_lines(rng, count, pair.movement.total_frames, groups);
    pair.movement.patterns = (count > 0 || rng.coin()).then_some(lines);
    pair
}

/// The names of one bone: alike, or one of them or both empty or absent.
fn names(rng: &mut Rng, varied: bool) -> [Option<Vec<u8>>; 2] {
    let name = some_name(rng, varied);
    [(); 2].map(|()| match rng.below(5) {
        0 => None,
        1 => Some(Vec::new()),
        _ => Some(name.clone()),
    })
}

/// A name that is not empty, short if not `varied`.
pub fn some_name(rng: &mut Rng, varied: bool) -> Vec<u8> {
    let length = match rng.below(12) {
        0 => 1,
        1 if varied => limits::STRING_BYTES,
        _ => 1 + rng.below(8),
    };
    name_of(rng, length)
}
