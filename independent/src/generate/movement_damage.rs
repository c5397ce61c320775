//! Damage to a movement's lists: refusals 14 to 16.

use super::movement::{any_lines, Movement, Pattern};
use super::rng::Rng;

/// Damages one list.
pub fn damage(rng: &mut Rng, movement: &mut Movement) {
    match rng.below(8) {
        0 => total_frames(rng, movement),
        1..=3 => key(rng, movement),
        _ => pattern(rng, movement),
    }
}

fn total_frames(rng: &mut Rng, movement: &mut Movement) {
    let most = movement.total_frames;
    let far = [i64::from(i32::MIN), i64::from(i32::MAX)];
    movement.total_frames = *rng.pick(&[0, -1, 32_768, far[0], far[1], most - 1, 1]);
}

/// A key's frame that is out of range, or out of order after `before`.
fn bad_frame(rng: &mut Rng, before: i64, total_frames: i64) -> i64 {
    *rng.pick(&[
        before,
        before - 1,
        total_frames,
        total_frames,
        total_frames + 1,
        -1,
        i64::from(i32::MAX),
        i64::from(i32::MIN),
    ])
}

fn key(rng: &mut Rng, movement: &mut Movement) {
    let total_frames = movement.total_frames;
    let bone = rng.below(movement.bones.len());
    let channel = rng.below(10);
    let keys = &mut movement.bones[bone].channels[channel];
    // One that is left out is written, to have a key at fault.
    if keys.is_empty() {
        keys.push((0, 0));
    }
    match rng.below(4) {
        // The first is not at 0.
        0 => keys[0].0 = *rng.pick(&[1, -1, total_frames]),
        // Two at the same frame.
        1 => {
            let row = rng.below(keys.len());
            keys.insert(row, keys[row]);
        }
        2 if keys.len() > 1 => {
            let row = 1 + rng.below(keys.len() - 1);
            keys.swap(row - 1, row);
        }
        _ => {
            let row = rng.below(keys.len());
            let before = keys[row].0;
            let frame = bad_frame(rng, before, total_frames);
            keys.insert(row + 1, (frame, 0));
        }
    }
}

/// One line or two have a fault of their own, none has frame 0, or both, or the
/// only one with frame 0 has a bad group.
fn pattern(rng: &mut Rng, movement: &mut Movement) {
    let total_frames = movement.total_frames;
    let lines = movement.patterns.get_or_insert_default();
    if lines.is_empty() {
        let count = 1 + rng.below(9);
        // The total may be damaged already.
        *lines = any_lines(rng, count, total_frames.max(1), 4);
    }
    let row = rng.below(lines.len());
    match rng.below(10) {
        0..=3 => line_fault(rng, &mut lines[row], total_frames),
        4 => {
            let other = rng.below(lines.len());
            line_fault(rng, &mut lines[row], total_frames);
            line_fault(rng, &mut lines[other], total_frames);
        }
        5 | 6 => {
            if rng.once_in(3) {
                lines.truncate(1);
            }
            no_start(rng, lines, total_frames);
        }
        // Wherever this fault is, the refusal is at row 0.
        7 | 8 => {
            no_start(rng, lines, total_frames);
            line_fault(rng, &mut lines[row], total_frames);
        }
        _ => {
            no_start(rng, lines, total_frames);
            lines[row].0 = 0;
            lines[row].1 = bad_group(rng);
        }
    }
}

/// Gives a line a frame below 0 or not below the total, or a group below 0.
fn line_fault(rng: &mut Rng, line: &mut Pattern, total_frames: i64) {
    match rng.below(3) {
        0 => line.0 = *rng.pick(&[-1, -1, i64::from(i32::MIN)]),
        1 => {
            let most = i64::from(i32::MAX);
            line.0 = *rng.pick(&[total_frames, total_frames, total_frames + 1, most]);
        }
        _ => line.1 = bad_group(rng),
    }
}

fn bad_group(rng: &mut Rng) -> i64 {
    *rng.pick(&[-1, -1, i64::from(i32::MIN)])
}

/// Moves every line from frame 0 to another, below the total if there is one.
fn no_start(rng: &mut Rng, lines: &mut [Pattern], total_frames: i64) {
    for (frame, _, _) in lines.iter_mut().filter(|line| line.0 == 0) {
        *frame = rng.between(1, (total_frames - 1).max(1));
    }
}
