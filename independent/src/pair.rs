//! Loading a pair: the figure, the movement, then refusals 18, 19 and 20.

use crate::cursor::Name;
use crate::figure::{self, Figure};
use crate::limits;
use crate::many;
use crate::movement::{self, Movement};
use crate::refusal::Refusal;

/// A refusal and its file: 0 figure, 1 movement, 2 the pair.
#[derive(Clone, Copy, Debug, PartialEq, Eq)]
pub struct PairRefusal {
    pub file: u8,
    pub refusal: Refusal,
}

/// A pair that has been loaded, and the texts that its names stand in.
#[derive(Clone, Debug, PartialEq, Eq)]
pub struct Pair<'a> {
    pub figure: Figure,
    pub figure_text: &'a [u8],
    pub movement: Movement,
    pub movement_text: &'a [u8],
}

/// Loads a pair for tables of these many numbers.
pub fn load<'a>(
    figure_text: &'a [u8],
    movement_text: &'a [u8],
    figure_room: usize,
    movement_room: usize,
) -> Result<Pair<'a>, PairRefusal> {
    let in_file = |file| move |refusal| PairRefusal { file, refusal };
    let figure = figure::read(figure_text, figure_room).map_err(in_file(0))?;
    let movement = movement::read(movement_text, movement_room).map_err(in_file(1))?;
    let pair = Pair {
        figure,
        figure_text,
        movement,
        movement_text,
    };
    check(&pair).map_err(in_file(2))?;
    Ok(pair)
}

/// Loads the pair of a program's standard input: the figure's record, and then
/// the movement. Where no record stands, the figure's first line is wrong.
pub fn load_input(input: &[u8]) -> Result<Pair<'_>, PairRefusal> {
    match many::split_first(input) {
        Ok((figure, movement)) => {
            load(figure, movement, limits::FIGURE_ROOM, limits::MOVEMENT_ROOM)
        }
        Err(_) => Err(PairRefusal {
            file: 0,
            refusal: Refusal::new(2, 0),
        }),
    }
}

/// The bytes of a name, none for an absent one.
pub fn name_bytes(text: &[u8], name: Option<Name>) -> &[u8] {
    match name {
        Some(name) => &text[name.offset..name.offset + name.length],
        None => &[],
    }
}

/// The lowest of refusals 18 to 20, with the lowest row.
fn check(pair: &Pair) -> Result<(), Refusal> {
    let bones = pair.movement.bones.len();
    if pair.figure.bones.len() != bones {
        return Err(Refusal::new(18, bones));
    }
    if let Some(row) = (0..bones).find(|&row| names_differ(pair, row)) {
        return Err(Refusal::new(19, row));
    }
    let groups = pair.figure.groups.len() as i64;
    let mut lines = pair.movement.patterns.iter();
    match lines.position(|line| line.group >= groups) {
        Some(row) => Err(Refusal::new(20, row)),
        None => Ok(()),
    }
}

/// Whether both texts name a bone, and not alike.
fn names_differ(pair: &Pair, row: usize) -> bool {
    let ours = name_bytes(pair.figure_text, pair.figure.bones[row].name);
    let theirs = name_bytes(pair.movement_text, pair.movement.bones[row].name);
    !ours.is_empty() && !theirs.is_empty() && ours != theirs
}
