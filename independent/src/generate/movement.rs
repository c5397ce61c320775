//! Movements to write: their lists, sound ones, and their pieces.

use super::far_keys::far_keys;
use super::number;
use super::piece::{any_name, Piece, Writer};
use super::render::{any_style, render, Style};
use super::rng::Rng;
use crate::limits;
use crate::movement::DEFAULTS;
use std::array;
use std::cmp::Reverse;

/// Frame and value of a key.
pub type Key = (i64, i64);
/// Frame, group and flag of a pattern line.
pub type Pattern = (i64, i64, bool);

#[derive(Clone, Debug)]
pub struct Bone {
    pub name: Option<Vec<u8>>,
    /// The keys of each channel. Without keys, its chunk is left out.
    pub channels: [Vec<Key>; 10],
}

/// A movement to write. Without patterns, their chunk is left out.
#[derive(Clone, Debug)]
pub struct Movement {
    pub total_frames: i64,
    pub name: Option<Vec<u8>>,
    pub bones: Vec<Bone>,
    pub patterns: Option<Vec<Pattern>>,
    pub style: Style,
    pub varied: bool,
}

pub const CHANNELS: [&str; 10] = [
    "translate.x",
    "translate.y",
    "translate.z",
    "scale.x",
    "scale.y",
    "scale.z",
    "rotate.x",
    "rotate.y",
    "rotate.z",
    "roll",
];

/// A sound movement: most are small, some have lists at their most, and some
/// have keys far apart.
pub fn sound(rng: &mut Rng) -> Movement {
    match rng.below(40) {
        0 => at_limits(rng, 0),
        1 => far_keys(rng),
        _ => small(rng),
    }
}

pub fn small(rng: &mut Rng) -> Movement {
    let (total_frames, bones) = match rng.below(150) {
        0 => (limits::TOTAL_FRAMES, 1),
        1..=15 => (1, 1 + rng.below(3)),
        16..=19 => (rng.between(1, 2_000), 1),
        _ => (rng.between(1, 40), 1 + rng.below(4)),
    };
    of_size(rng, total_frames, bones)
}

/// A movement of so many frames and bones, of few keys and pattern lines.
pub fn of_size(rng: &mut Rng, total_frames: i64, bones: usize) -> Movement {
    let style = any_style(rng);
    Movement {
        total_frames,
        name: any_name(rng),
        bones: any_bones(rng, bones, total_frames),
        patterns: patterns(rng, total_frames),
        style,
        varied: true,
    }
}

/// So many bones. In one movement of three each has all channels.
pub fn any_bones(rng: &mut Rng, count: usize, total_frames: i64) -> Vec<Bone> {
    let whole = rng.once_in(3);
    let bone = |_| {
        let stands = if whole { [true; 10] } else { any_channels(rng) };
        Bone {
            name: any_name(rng),
            channels: array::from_fn(|channel| {
                let keys = stands[channel].then(|| any_keys(rng, channel, total_frames));
                keys.unwrap_or_default()
            }),
        }
    };
    (0..count).map(bone).collect()
}

/// Whether each channel of a bone stands.
fn any_channels(rng: &mut Rng) -> [bool; 10] {
    let one = rng.below(10);
    match rng.below(8) {
        0 => [false; 10],
        1 => array::from_fn(|channel| channel == one),
        2 => array::from_fn(|channel| channel != one),
        // A bone that never scales.
        3 => array::from_fn(|channel| !(3..6).contains(&channel)),
        4 => [true; 10],
        _ => array::from_fn(|_| rng.coin()),
    }
}

/// A few keys: the first at 0, the others rising, the last frame at times.
fn any_keys(rng: &mut Rng, channel: usize, total_frames: i64) -> Vec<Key> {
    let mut frames = vec![0];
    for _ in 0..*rng.pick(&[0, 0, 0, 1, 2, 4]) {
        frames.push(rng.between(0, total_frames - 1));
    }
    if rng.once_in(4) {
        frames.push(total_frames - 1);
    }
    frames.sort_unstable();
    frames.dedup();
    let values = any_values(rng, channel, frames.len());
    frames.into_iter().zip(values).collect()
}

/// The values of so many keys. In one channel of six each is the default, as if
/// it were left out; in one of twelve each is the default of some channel, and
/// in one of twelve some are its own.
fn any_values(rng: &mut Rng, channel: usize, count: usize) -> Vec<i64> {
    let default = DEFAULTS[channel];
    let some_default = *rng.pick(&DEFAULTS);
    let kind = rng.below(12);
    let value = |_| match kind {
        0 | 1 => default,
        2 => some_default,
        3 if rng.coin() => default,
        _ => number::any_float(rng),
    };
    (0..count).map(value).collect()
}

fn patterns(rng: &mut Rng, total_frames: i64) -> Option<Vec<Pattern>> {
    if rng.coin() {
        return None;
    }
    let count = rng.below(8);
    let mut lines = any_lines(rng, count, total_frames, 4);
    for (_, group, _) in &mut lines {
        if rng.once_in(16) {
            *group = i64::from(i32::MAX);
        }
    }
    Some(lines)
}

/// So many pattern lines of so many groups. If there are any, one has frame 0.
/// Their frames never fall, never rise, or are as they come.
pub fn any_lines(rng: &mut Rng, count: usize, total_frames: i64, groups: usize) -> Vec<Pattern> {
    let mut lines = Vec::new();
    for _ in 0..count {
        let line = any_line(rng, &lines, total_frames, groups);
        lines.push(line);
    }
    if count > 0 {
        lines[rng.below(count)].0 = 0;
    }
    match rng.below(4) {
        0 => lines.sort_by_key(|line| line.0),
        1 => lines.sort_by_key(|line| Reverse(line.0)),
        _ => {}
    }
    lines
}

/// A line of any frame and group. One in four is like one before it but for the
/// flag, so that it matters which of the two is the later.
fn any_line(rng: &mut Rng, before: &[Pattern], total_frames: i64, groups: usize) -> Pattern {
    if !before.is_empty() && rng.once_in(4) {
        let &(frame, group, flag) = rng.pick(before);
        return (frame, group, !flag);
    }
    let frame = rng.between(0, total_frames - 1);
    (frame, rng.below(groups) as i64, rng.coin())
}

/// A bone that is short to write: one key for each channel that stands.
fn bare(stands: [bool; 10]) -> Bone {
    Bone {
        name: None,
        channels: stands.map(|stands| vec![(0, 0); usize::from(stands)]),
    }
}

/// So many such bones: each has all channels, each has none, or each has any.
fn bare_bones(rng: &mut Rng, count: usize) -> Vec<Bone> {
    let kind = rng.below(3);
    let bone = |_| match kind {
        0 => bare([true; 10]),
        1 => bare([false; 10]),
        _ => bare(any_channels(rng)),
    };
    (0..count).map(bone).collect()
}

/// A sound movement that fills the table: every list at its most.
pub fn full(rng: &mut Rng) -> Movement {
    let total_frames = rng.between(4, limits::TOTAL_FRAMES);
    full_of(rng, total_frames)
}

/// One that fills the table and has few frames, to be played at every one.
pub fn short(rng: &mut Rng) -> Movement {
    let total_frames = rng.between(20, 40);
    full_of(rng, total_frames)
}

fn full_of(rng: &mut Rng, total_frames: i64) -> Movement {
    // Frames of one digit, to be short to write.
    let lines = any_lines(rng, limits::PATTERNS, total_frames.min(10), 10);
    let mut bones = vec![bare([true; 10]); limits::BONES];
    add_keys(rng, &mut bones, limits::KEYS);
    Movement {
        total_frames,
        name: None,
        bones,
        patterns: Some(lines),
        style: Style::Compact,
        varied: false,
    }
}

/// A movement with one list at its most, or past it. Short to write.
pub fn at_limits(rng: &mut Rng, past: usize) -> Movement {
    // Bones with and without channels, keys in many and in few, and patterns.
    let list = *rng.pick(&[0, 0, 1, 1, 2]);
    let count = match list {
        0 => limits::BONES + past,
        _ => 1 + rng.below(2),
    };
    let mut bones = bare_bones(rng, count);
    let mut total_frames = rng.between(1, 20);
    if list == 1 {
        total_frames = fill(rng, &mut bones, limits::KEYS + past) + rng.between(0, 400);
    }
    let patterns = match list {
        2 => Some(any_lines(rng, limits::PATTERNS + past, total_frames, 10)),
        _ => patterns(rng, total_frames),
    };
    Movement {
        total_frames,
        name: any_name(rng),
        bones,
        patterns,
        style: Style::Compact,
        varied: false,
    }
}

/// Gives bare bones so many keys; answers how many frames they take. Where the
/// bones have no channels, all keys are in one to three.
fn fill(rng: &mut Rng, bones: &mut [Bone], wanted: usize) -> i64 {
    for _ in 0..1 + rng.below(3) {
        let bone = rng.below(bones.len());
        bones[bone].channels[rng.below(10)] = vec![(0, 0)];
    }
    add_keys(rng, bones, wanted);
    let channels = bones.iter().flat_map(|bone| &bone.channels);
    channels.map(Vec::len).max().unwrap_or(0) as i64
}

/// Spreads keys over the channels that stand, one frame after another. Each
/// has a key at frame 0 already.
fn add_keys(rng: &mut Rng, bones: &mut [Bone], wanted: usize) {
    let channels = bones.iter_mut().flat_map(|bone| &mut bone.channels);
    let mut channels: Vec<&mut Vec<Key>> = channels.filter(|keys| !keys.is_empty()).collect();
    let standing = channels.len();
    for count in standing..wanted {
        let frame = (count / standing) as i64;
        channels[count % standing].push((frame, number::short_float(rng)));
    }
}

impl Movement {
    pub fn text(&self, rng: &mut Rng) -> Vec<u8> {
        let pieces = self.pieces(rng);
        render(rng, b";TRA", &pieces, self.style)
    }

    pub fn pieces(&self, rng: &mut Rng) -> Vec<Piece> {
        let mut writer = Writer::new(rng, self.varied);
        let w = &mut writer;
        w.head("traVersion", "4.0");
        w.open("Figure");
        w.name(&self.name);
        w.int_chunk("totalFrame", &[self.total_frames]);
        for bone in &self.bones {
            w.open("bone");
            w.name(&bone.name);
            for channel in w.order(10) {
                let keys = &bone.channels[channel];
                if !keys.is_empty() {
                    write_channel(w, CHANNELS[channel], keys);
                }
            }
            w.close();
        }
        if let Some(patterns) = &self.patterns {
            w.open("DynamicPolygons");
            for &(frame, group, flag) in patterns {
                w.open("kgf");
                w.int(frame);
                w.int(group);
                w.flag(flag);
                w.close();
            }
            w.close();
        }
        w.close();
        writer.pieces
    }
}

/// A chunk of keys, or of none.
pub fn write_channel(w: &mut Writer, keyword: &str, keys: &[Key]) {
    w.open(keyword);
    for &(frame, value) in keys {
        w.open("kf");
        w.int(frame);
        w.float(value);
        w.close();
    }
    w.close();
}
