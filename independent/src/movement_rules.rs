//! The rules a movement's lists must keep: refusals 8 and 14 to 16.

use crate::limits;
use crate::movement::{Key, Movement, Pattern};
use crate::refusal::Refusal;

/// The lowest of refusals 8 and 14 to 16, with the lowest row.
pub fn check(movement: &Movement) -> Result<(), Refusal> {
    row_counts(movement)?;
    if !(1..=limits::TOTAL_FRAMES).contains(&movement.total_frames) {
        return Err(Refusal::new(14, 0));
    }
    keys(movement)?;
    patterns(movement)
}

fn row_counts(movement: &Movement) -> Result<(), Refusal> {
    let counts = [
        (movement.bones.len(), limits::BONES),
        (movement.key_count(), limits::KEYS),
        (movement.patterns.len(), limits::PATTERNS),
    ];
    match counts.iter().position(|&(count, most)| count > most) {
        Some(list) => Err(Refusal::new(8, list)),
        None => Ok(()),
    }
}

/// Key rows count over the whole table, by bone and then channel number. A
/// channel that is left out has none.
fn keys(movement: &Movement) -> Result<(), Refusal> {
    let mut first_row = 0;
    for channel in movement.channels() {
        if let Some(index) = first_bad_key(channel, movement.total_frames) {
            return Err(Refusal::new(15, first_row + index));
        }
        first_row += channel.len();
    }
    Ok(())
}

/// Frames begin at 0 and rise strictly, each below the total.
fn first_bad_key(channel: &[Key], total_frames: i64) -> Option<usize> {
    (0..channel.len()).find(|&index| {
        let frame = channel[index].frame;
        let in_order = match index.checked_sub(1) {
            None => frame == 0,
            Some(before) => channel[before].frame < frame,
        };
        !in_order || frame < 0 || frame >= total_frames
    })
}

/// Lines stand in any order, each with a frame from 0 to below the total and a
/// group that is not below 0. If there are any, one has frame 0, of whatever
/// group; where none has, row 0 is at fault before any other row.
fn patterns(movement: &Movement) -> Result<(), Refusal> {
    let lines = &movement.patterns;
    if !lines.is_empty() && lines.iter().all(|line| line.frame != 0) {
        return Err(Refusal::new(16, 0));
    }
    let frames = 0..movement.total_frames;
    let is_bad = |line: &Pattern| !frames.contains(&line.frame) || line.group < 0;
    match lines.iter().position(is_bad) {
        Some(row) => Err(Refusal::new(16, row)),
        None => Ok(()),
    }
}
