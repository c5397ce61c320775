//! Playing: Sample, Shown and its reason, Corner and Label, worked out from the
//! lists as the texts write them. None stands for 21, no such thing.

use crate::figure::Figure;
use crate::movement::{Movement, Pattern, DEFAULTS};
use crate::pair::name_bytes;

/// A fraction of millionths in lowest terms, denominator above 0.
#[derive(Clone, Copy, Debug, PartialEq, Eq)]
pub struct Fraction {
    pub numerator: i64,
    pub denominator: i64,
}

impl Fraction {
    /// Brings a fraction to lowest terms; `denominator` is above 0. It is by
    /// remainders, so that `steps` has another way to be compared with.
    pub fn reduced(numerator: i64, denominator: i64) -> Fraction {
        let (mut factor, mut rest) = (denominator, numerator.abs() % denominator);
        while rest != 0 {
            (factor, rest) = (rest, factor % rest);
        }
        Fraction {
            numerator: numerator / factor,
            denominator: denominator / factor,
        }
    }
}

/// One corner of a face.
#[derive(Clone, Copy, Debug, PartialEq, Eq)]
pub struct Corner {
    pub position: [i64; 3],
    /// The owning bone, -1 for none.
    pub owner: i64,
    pub uv: Option<[i64; 2]>,
    pub material: i64,
}

/// The row of a list, if it exists.
fn row<T>(list: &[T], number: i64) -> Option<&T> {
    list.get(usize::try_from(number).ok()?)
}

fn is_frame(movement: &Movement, frame: i64) -> bool {
    0 <= frame && frame < movement.total_frames
}

/// A channel's value at a frame, not yet in lowest terms.
#[derive(Clone, Copy, Debug, PartialEq, Eq)]
pub enum Unreduced {
    /// From the last key on, or where the channel is left out.
    Whole(i64),
    /// Before the last key: `sum` over the frames from the key that is not
    /// after the frame to the next one.
    Between { sum: i64, gap: i64 },
}

/// A channel's value at a frame; one that is left out has its default at all.
pub fn unreduced(movement: &Movement, bone: i64, channel: i64, frame: i64) -> Option<Unreduced> {
    let keys = row(&row(&movement.bones, bone)?.channels, channel)?;
    if !is_frame(movement, frame) {
        return None;
    }
    if keys.is_empty() {
        return Some(Unreduced::Whole(*row(&DEFAULTS, channel)?));
    }
    let before = keys.iter().rev().find(|key| key.frame <= frame)?;
    let after = keys.iter().find(|key| key.frame > frame);
    Some(match after {
        Some(after) => {
            let gap = after.frame - before.frame;
            let rise = (after.value - before.value) * (frame - before.frame);
            let sum = before.value * gap + rise;
            Unreduced::Between { sum, gap }
        }
        None => Unreduced::Whole(before.value),
    })
}

/// The same in lowest terms.
pub fn sample(movement: &Movement, bone: i64, channel: i64, frame: i64) -> Option<Fraction> {
    Some(match unreduced(movement, bone, channel, frame)? {
        Unreduced::Whole(value) => Fraction::reduced(value, 1),
        Unreduced::Between { sum, gap } => Fraction::reduced(sum, gap),
    })
}

/// The bone whose `vertexIndices` name a point, -1 if none.
pub fn owner(figure: &Figure, point: i64) -> i64 {
    let named = figure
        .bones
        .iter()
        .position(|bone| bone.vertices.contains(&point));
    named.map_or(-1, |bone| bone as i64)
}

/// Whether a face is shown at a frame.
pub fn shown(figure: &Figure, movement: &Movement, face: i64, frame: i64) -> Option<bool> {
    let face = row(&figure.faces, face)?;
    if !is_frame(movement, frame) {
        return None;
    }
    if face
        .vertices
        .iter()
        .any(|&point| owner(figure, point) == -1)
    {
        return Some(false);
    }
    match face.group {
        Some(group) => Some(group_shown(movement, group as i64, frame)),
        None => Some(true),
    }
}

/// Whether a group is shown at a frame: the flag of the line that decides, no
/// if there is none.
fn group_shown(movement: &Movement, group: i64, frame: i64) -> bool {
    deciding_line(movement, group, frame).is_some_and(|(_, line)| line.flag)
}

/// A group's line of greatest frame not after a frame, and its row.
fn deciding_line(movement: &Movement, group: i64, frame: i64) -> Option<(usize, &Pattern)> {
    let lines = movement.patterns.iter().enumerate();
    lines
        .filter(|(_, line)| line.group == group && line.frame <= frame)
        // Lines stand in any order. Of equal frames this takes the later line.
        .max_by_key(|(_, line)| line.frame)
}

/// That a face is shown at a frame, or what hides it.
#[derive(Clone, Copy, Debug, PartialEq, Eq)]
pub enum Reason {
    Shown,
    /// The first corner without a bone.
    Corner(usize),
    /// Its group has no line by the frame.
    Unset,
    /// The row of the pattern line that decides.
    Line(usize),
}

/// Why a face is shown at a frame or is not; corners come before its group. It
/// does not ask `shown`, so that each can be compared with the other.
pub fn why(figure: &Figure, movement: &Movement, face: i64, frame: i64) -> Option<Reason> {
    let face = row(&figure.faces, face)?;
    if !is_frame(movement, frame) {
        return None;
    }
    let mut owners = face.vertices.iter().map(|&point| owner(figure, point));
    if let Some(corner) = owners.position(|owner| owner == -1) {
        return Some(Reason::Corner(corner));
    }
    Some(match face.group {
        Some(group) => group_reason(movement, group as i64, frame),
        None => Reason::Shown,
    })
}

/// The reason of a face whose corners all have a bone.
fn group_reason(movement: &Movement, group: i64, frame: i64) -> Reason {
    match deciding_line(movement, group, frame) {
        None => Reason::Unset,
        Some((_, line)) if line.flag => Reason::Shown,
        Some((row, _)) => Reason::Line(row),
    }
}

/// A corner of a face.
pub fn corner(figure: &Figure, face: i64, corner: i64) -> Option<Corner> {
    let face = row(&figure.faces, face)?;
    let point = *row(&face.vertices, corner)?;
    let uv = *row(&face.uvs, corner)?;
    Some(Corner {
        position: *row(&figure.points, point)?,
        owner: owner(figure, point),
        uv: row(&figure.uvs, uv).copied(),
        material: face.material,
    })
}

/// A bone's name: the movement's where it is not empty, else the figure's.
pub fn label<'a>(
    figure: &Figure,
    figure_text: &'a [u8],
    movement: &Movement,
    movement_text: &'a [u8],
    bone: i64,
) -> Option<&'a [u8]> {
    let of_figure = name_bytes(figure_text, row(&figure.bones, bone)?.name);
    let of_movement = name_bytes(movement_text, row(&movement.bones, bone)?.name);
    if of_movement.is_empty() {
        Some(of_figure)
    } else {
        Some(of_movement)
    }
}
