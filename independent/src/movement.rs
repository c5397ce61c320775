//! The movement: its lists, and the reader of its shape.

use crate::cursor::{Cursor, FreeChunk, Name};
use crate::movement_rules;
use crate::refusal::Refusal;
use crate::token;

pub const CHANNELS: usize = 10;

/// What a channel that is left out has at every frame, by channel number:
/// 004's standing pose, in millionths.
pub const DEFAULTS: [i64; CHANNELS] = [
    0,
    0,
    0,
    100_000_000,
    100_000_000,
    100_000_000,
    0,
    0,
    1_000_000,
    0,
];

#[derive(Clone, Copy, Debug, PartialEq, Eq)]
pub struct Key {
    pub frame: i64,
    pub value: i64,
}

#[derive(Clone, Debug, Default, PartialEq, Eq)]
pub struct Bone {
    pub name: Option<Name>,
    /// The keys of each channel, by channel number. One that is left out has
    /// none, one that is written has at least one.
    pub channels: [Vec<Key>; CHANNELS],
}

#[derive(Clone, Copy, Debug, PartialEq, Eq)]
pub struct Pattern {
    pub frame: i64,
    pub group: i64,
    pub flag: bool,
}

#[derive(Clone, Debug, Default, PartialEq, Eq)]
pub struct Movement {
    pub total_frames: i64,
    pub name: Option<Name>,
    pub bones: Vec<Bone>,
    pub patterns: Vec<Pattern>,
}

impl Movement {
    /// Every channel's keys, by bone and then by channel number.
    pub fn channels(&self) -> impl Iterator<Item = &Vec<Key>> {
        self.bones.iter().flat_map(|bone| &bone.channels)
    }

    pub fn key_count(&self) -> usize {
        self.channels().map(Vec::len).sum()
    }

    /// How many numbers its table takes.
    pub fn total(&self) -> usize {
        3 + 22 * self.bones.len() + 2 * self.key_count() + 3 * self.patterns.len()
    }
}

/// Reads a movement for a table of `room` numbers: refusals 1 to 8 and 14
/// to 17.
pub fn read(text: &[u8], room: usize) -> Result<Movement, Refusal> {
    let tokens = token::lex(text, b";TRA")?;
    let movement = shape(&mut Cursor::new(&tokens, text.len()))?;
    movement_rules::check(&movement)?;
    let total = movement.total();
    if total > room {
        return Err(Refusal::new(17, total));
    }
    Ok(movement)
}

fn shape(cursor: &mut Cursor) -> Result<Movement, Refusal> {
    let mut movement = Movement::default();
    cursor.head("traVersion", "4.0")?;
    cursor.open_chunk("Figure")?;
    movement.name = cursor.optional_name()?;
    cursor.open_chunk("totalFrame")?;
    [movement.total_frames] = cursor.ints()?;
    cursor.open_chunk("bone")?;
    movement.bones.push(bone(cursor)?);
    while cursor.open_optional("bone") {
        movement.bones.push(bone(cursor)?);
    }
    if cursor.at_open() {
        cursor.open_chunk("DynamicPolygons")?;
        movement.patterns = cursor.rows("kgf", 0, pattern)?;
    }
    cursor.close()?;
    cursor.end()?;
    Ok(movement)
}

/// The channels by number; any may be left out.
const BONE: [FreeChunk; CHANNELS] = [
    ("translate.x", false),
    ("translate.y", false),
    ("translate.z", false),
    ("scale.x", false),
    ("scale.y", false),
    ("scale.z", false),
    ("rotate.x", false),
    ("rotate.y", false),
    ("rotate.z", false),
    ("roll", false),
];

fn bone(cursor: &mut Cursor) -> Result<Bone, Refusal> {
    let mut bone = Bone {
        name: cursor.optional_name()?,
        ..Bone::default()
    };
    cursor.free_order(&BONE, |cursor, channel| {
        bone.channels[channel] = cursor.rows("kf", 1, key)?;
        Ok(())
    })?;
    Ok(bone)
}

fn key(cursor: &mut Cursor) -> Result<Key, Refusal> {
    let frame = cursor.int()?;
    let value = cursor.float()?;
    cursor.close()?;
    Ok(Key { frame, value })
}

fn pattern(cursor: &mut Cursor) -> Result<Pattern, Refusal> {
    let frame = cursor.int()?;
    let group = cursor.int()?;
    let flag = cursor.flag_chunk()?;
    Ok(Pattern { frame, group, flag })
}
