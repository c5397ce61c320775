//! Pattern lines in any order: which are taken, how they are listed, and when
//! their groups are shown.

mod common;

use common::{grouped, movement_of_lines, movement_refusal, refusal};
use independent::listing::movement_listing;
use independent::play::shown;
use independent::{figure, limits, movement};

/// Whether each of groups 0 and 1 is shown at each frame of a movement.
fn states(text: &str) -> [Vec<bool>; 2] {
    let figure = figure::read(grouped().as_bytes(), limits::FIGURE_ROOM).unwrap();
    let movement = movement::read(text.as_bytes(), limits::MOVEMENT_ROOM).unwrap();
    // Face 1 is of group 0 and face 2 of group 1.
    [1, 2].map(|face| {
        let at = |frame| shown(&figure, &movement, face, frame).unwrap();
        (0..movement.total_frames).map(at).collect()
    })
}

#[test]
fn lines_that_are_taken() {
    let of = |lines: &str| states(&movement_of_lines(5, lines))[0].clone();
    assert_eq!(of("3 0 true, 0 0 false"), [false, false, false, true, true]);
    assert_eq!(of("2 0 true, 0 0 false, 2 0 false"), [false; 5]);
    assert_eq!(
        of("2 0 false, 0 0 false, 2 0 true"),
        [false, false, true, true, true]
    );
    // Only another group has a line at frame 0.
    assert_eq!(
        of("4 0 false, 2 0 true, 0 1 true"),
        [false, false, true, true, false]
    );
    assert_eq!(of(""), [false; 5]);
}

#[test]
fn lines_that_are_refused() {
    for (lines, row) in [
        ("1 0 true", 0),
        ("1 0 true, 9 0 true", 0),
        ("1 0 true, 0 -1 true", 1),
        ("0 0 true, 5 0 true", 1),
    ] {
        let text = movement_of_lines(5, lines);
        assert_eq!(movement_refusal(text), refusal(16, row), "{lines}");
    }
}

/// 004's lists A and B: the same lines, the second not by frame.
const LIST_A: &str = "0 0 true, 10 1 true, 10 0 false, 15 1 false";
const LIST_B: &str = "10 1 true, 10 0 false, 0 0 true, 15 1 false";

#[test]
fn lists_a_and_b_of_004_are_played_alike() {
    let of = |lines| states(&movement_of_lines(16, lines));
    let first: Vec<bool> = (0..16).map(|frame| frame < 10).collect();
    let second: Vec<bool> = (0..16).map(|frame| (10..15).contains(&frame)).collect();
    assert_eq!(of(LIST_A), [first, second]);
    assert_eq!(of(LIST_B), of(LIST_A));
}

#[test]
fn listings_keep_the_writing_order() {
    let rows = |lines| {
        let listing = movement_listing(movement_of_lines(16, lines).as_bytes());
        let start = listing.find("pattern").unwrap();
        listing[start..].replace('\t', " ")
    };
    assert_eq!(
        rows(LIST_A),
        "pattern 0 0 1\npattern 10 1 1\npattern 10 0 0\npattern 15 1 0\n"
    );
    assert_eq!(
        rows(LIST_B),
        "pattern 10 1 1\npattern 10 0 0\npattern 0 0 1\npattern 15 1 0\n"
    );
}

/// Frame, group and flag.
type Line = (i64, i64, bool);

const TOTAL: i64 = 3;

/// Every line of a frame and a group that may be one too low or too high.
fn every_line() -> Vec<Line> {
    let mut lines = Vec::new();
    for frame in -1..=TOTAL {
        for group in -1..=1 {
            lines.extend([true, false].map(|flag| (frame, group, flag)));
        }
    }
    lines
}

/// The row at fault, by going over the rows.
fn faulty_row(lines: &[Line]) -> Option<usize> {
    let starts = lines.iter().filter(|line| line.0 == 0).count();
    (0..lines.len()).find(|&row| {
        let (frame, group, _) = lines[row];
        !(0..TOTAL).contains(&frame) || group < 0 || (row == 0 && starts == 0)
    })
}

/// A group's states, by playing frame after frame, and the lines of each in
/// writing order.
fn played(lines: &[Line], group: i64) -> Vec<bool> {
    let mut state = false;
    let mut states = Vec::new();
    for frame in 0..TOTAL {
        for line in lines.iter().filter(|line| line.0 == frame) {
            if line.1 == group {
                state = line.2;
            }
        }
        states.push(state);
    }
    states
}

fn written(lines: &[Line]) -> String {
    let each = |&(frame, group, flag): &Line| format!("{frame} {group} {flag}");
    lines.iter().map(each).collect::<Vec<_>>().join(", ")
}

/// Every list of up to three lines.
#[test]
fn every_short_list() {
    let every = every_line();
    let mut lists: Vec<Vec<Line>> = vec![Vec::new()];
    let mut start = 0;
    for _ in 0..3 {
        let longest = start..lists.len();
        start = lists.len();
        for list in longest {
            for &line in &every {
                lists.push([&lists[list][..], &[line]].concat());
            }
        }
    }
    assert_eq!(lists.len(), 1 + 30 + 30 * 30 + 30 * 30 * 30);
    let mut taken = 0;
    for lines in lists {
        let text = movement_of_lines(TOTAL, &written(&lines));
        match faulty_row(&lines) {
            Some(row) => assert_eq!(movement_refusal(&text), refusal(16, row), "{lines:?}"),
            None => {
                let expected = [0, 1].map(|group| played(&lines, group));
                assert_eq!(states(&text), expected, "{lines:?}");
                taken += 1;
            }
        }
    }
    // All of the 12 lines that are sound, less the 8 that have not frame 0.
    let with_frame_0 = |count: u32| 12_i32.pow(count) - 8_i32.pow(count);
    assert_eq!(taken, 1 + (1..=3).map(with_frame_0).sum::<i32>());
}
