//! What the generated pairs cover of the reasons that faces are shown or not,
//! and which mistakes of a player they tell.

use independent::generate::{text, Kind};
use independent::movement::Pattern;
use independent::pair::load_input;
use independent::play::{owner, why, Reason};
use std::collections::{BTreeMap, BTreeSet};
use std::sync::OnceLock;
use Reason::{Corner, Line, Shown, Unset};

/// The seed and count of tests/compare.sh.
const SOUND: (u64, u64) = (5, 200);

/// A face, and what the player says of it at each frame.
struct Face {
    vertices: Vec<i64>,
    /// Whether each corner is without a bone.
    free: Vec<bool>,
    group: Option<i64>,
    reasons: Vec<Reason>,
}

struct Played {
    lines: Vec<Pattern>,
    faces: Vec<Face>,
}

fn played(text: &[u8]) -> Played {
    let pair = load_input(text).unwrap();
    let (figure, movement) = (&pair.figure, &pair.movement);
    let face = |row: usize| {
        let at = |frame| why(figure, movement, row as i64, frame).unwrap();
        let vertices = figure.faces[row].vertices.clone();
        Face {
            free: vertices
                .iter()
                .map(|&point| owner(figure, point) == -1)
                .collect(),
            vertices,
            group: figure.faces[row].group.map(|group| group as i64),
            reasons: (0..movement.total_frames).map(at).collect(),
        }
    };
    Played {
        faces: (0..figure.faces.len()).map(face).collect(),
        lines: pair.movement.patterns,
    }
}

/// The pairs that the reasons are compared on.
fn compared() -> &'static [Played] {
    static COMPARED: OnceLock<Vec<Played>> = OnceLock::new();
    COMPARED.get_or_init(|| {
        let (seed, count) = SOUND;
        let texts = (0..count).map(|index| text(Kind::SoundPairs, seed, index));
        texts.map(|text| played(&text)).collect()
    })
}

/// A face at a frame, with the movement's lines.
#[derive(Clone, Copy)]
struct Asked<'a> {
    lines: &'a [Pattern],
    face: &'a Face,
    frame: i64,
}

/// A line and its row.
type Numbered<'a> = (usize, &'a Pattern);

impl<'a> Asked<'a> {
    fn first_free(self) -> Option<usize> {
        self.face.free.iter().position(|&free| free)
    }

    /// The lines of the face's group, in writing order.
    fn of_group(self) -> impl DoubleEndedIterator<Item = Numbered<'a>> {
        let lines = self.lines.iter().enumerate();
        lines.filter(move |(_, line)| Some(line.group) == self.face.group)
    }

    /// Those of them that are not after the frame.
    fn applying(self) -> impl DoubleEndedIterator<Item = Numbered<'a>> {
        self.of_group()
            .filter(move |(_, line)| line.frame <= self.frame)
    }

    /// The last of these by frame, and by row where frames are equal.
    fn deciding(self) -> Option<Numbered<'a>> {
        self.applying().max_by_key(|&(row, line)| (line.frame, row))
    }

    /// What the group says, whatever the corners are.
    fn by_group(self) -> Reason {
        match self.face.group {
            Some(_) => of_line(self.deciding()),
            None => Shown,
        }
    }
}

fn of_line(line: Option<Numbered>) -> Reason {
    match line {
        None => Unset,
        Some((_, line)) if line.flag => Shown,
        Some((row, _)) => Line(row),
    }
}

/// A way to find a reason.
type Find = fn(Asked) -> Reason;

const RIGHT: Find = |asked| match asked.first_free() {
    Some(corner) => Corner(corner),
    None => asked.by_group(),
};

/// What a face at a frame is an example of.
fn examples(asked: Asked, reason: Reason) -> Vec<&'static str> {
    match reason {
        Shown if asked.face.group.is_none() => vec!["shown, of Polygons"],
        Shown => vec!["shown by a line"],
        Corner(corner) => corner_examples(asked, corner),
        Unset => vec![match asked.lines {
            [] => "unset, no lines",
            _ if asked.of_group().next().is_some() => "unset, none of the group yet",
            _ => "unset, none of the group",
        }],
        Line(row) => line_examples(asked, row),
    }
}

fn corner_examples(asked: Asked, corner: usize) -> Vec<&'static str> {
    let mut examples = vec![["corner 0", "corner 1", "corner 2", "corner 3"][corner]];
    examples.push(match asked.by_group() {
        _ if asked.face.group.is_none() => "corner, of Polygons",
        Shown => "corner where the group would show",
        Unset => "corner where the group is unset",
        _ => "corner where a line would hide",
    });
    if asked.face.free[corner + 1..].contains(&true) {
        examples.push("corner, and a later one");
    }
    examples
}

fn line_examples(asked: Asked, row: usize) -> Vec<&'static str> {
    let mut examples = vec![match row {
        0 => "line in row 0",
        _ => "line in a later row",
    }];
    let frame = asked.lines[row].frame;
    let mut earlier = asked.applying().filter(|&(other, _)| other < row);
    if earlier.any(|(_, line)| line.frame == frame && line.flag) {
        examples.push("line, the later of two unlike at one frame");
    }
    if asked.applying().any(|(other, _)| other > row) {
        examples.push("line, not the last");
    }
    if frame < asked.frame {
        examples.push("line before the frame");
    }
    examples
}

/// Calls `tell` with each face and frame of a pair and the player's reason.
fn each_reason(pair: &Played, mut tell: impl FnMut(Asked, Reason)) {
    let lines = &pair.lines;
    for face in &pair.faces {
        for (&reason, frame) in face.reasons.iter().zip(0..) {
            tell(Asked { lines, face, frame }, reason);
        }
    }
}

/// In how many pairs each example is met.
#[test]
fn sound_pairs_have_every_reason() {
    let mut counts: BTreeMap<&str, usize> = BTreeMap::new();
    for pair in compared() {
        let mut met = BTreeSet::new();
        each_reason(pair, |asked, reason| met.extend(examples(asked, reason)));
        for example in met {
            *counts.entry(example).or_default() += 1;
        }
    }
    let kinds: Vec<&str> = counts.keys().copied().collect();
    let expected = [
        "corner 0",
        "corner 1",
        "corner 2",
        "corner 3",
        "corner where a line would hide",
        "corner where the group is unset",
        "corner where the group would show",
        "corner, and a later one",
        "corner, of Polygons",
        "line before the frame",
        "line in a later row",
        "line in row 0",
        "line, not the last",
        "line, the later of two unlike at one frame",
        "shown by a line",
        "shown, of Polygons",
        "unset, no lines",
        "unset, none of the group",
        "unset, none of the group yet",
    ];
    assert_eq!(kinds, expected);
    assert!(counts.values().all(|&count| count >= 10), "{counts:?}");
}

/// How many of the pairs that are compared tell a mistake.
fn told_by(mistake: Find) -> usize {
    let told = |pair: &&Played| {
        let mut told = false;
        each_reason(pair, |asked, reason| told |= mistake(asked) != reason);
        told
    };
    compared().iter().filter(told).count()
}

fn are_told(mistakes: &[(&str, Find)]) {
    for &(name, mistake) in mistakes {
        let count = told_by(mistake);
        assert!(count >= 10, "{name}: {count}");
    }
}

#[test]
fn the_players_reason_is_the_right_one() {
    assert_eq!(told_by(RIGHT), 0);
}

#[test]
fn mistakes_in_the_corner_are_told() {
    are_told(&[
        ("corner 0", |asked| match RIGHT(asked) {
            Corner(_) => Corner(0),
            reason => reason,
        }),
        ("corners from 1", |asked| match RIGHT(asked) {
            Corner(corner) => Corner(corner + 1),
            reason => reason,
        }),
        ("the last corner", |asked| {
            let last = asked.face.free.iter().rposition(|&free| free);
            last.map_or_else(|| RIGHT(asked), Corner)
        }),
        ("how many corners", |asked| match RIGHT(asked) {
            Corner(_) => Corner(asked.face.free.iter().filter(|&&free| free).count()),
            reason => reason,
        }),
        ("the corner's point", |asked| match RIGHT(asked) {
            Corner(corner) => Corner(asked.face.vertices[corner] as usize),
            reason => reason,
        }),
        ("three corners only", |asked| match RIGHT(asked) {
            Corner(3) => asked.by_group(),
            reason => reason,
        }),
    ]);
}

#[test]
fn mistakes_in_the_order_of_corners_and_groups_are_told() {
    are_told(&[
        ("no corners", |asked| asked.by_group()),
        ("a group that hides first", |asked| match asked.by_group() {
            Shown => RIGHT(asked),
            reason => reason,
        }),
        ("a group that is unset first", |asked| {
            match asked.by_group() {
                Unset => Unset,
                _ => RIGHT(asked),
            }
        }),
        ("a line that hides first", |asked| match asked.by_group() {
            Line(row) => Line(row),
            _ => RIGHT(asked),
        }),
        ("a group that shows first", |asked| match asked.by_group() {
            Shown if asked.face.group.is_some() => Shown,
            _ => RIGHT(asked),
        }),
        ("corners of Polygons only", |asked| match asked.face.group {
            Some(_) => asked.by_group(),
            None => RIGHT(asked),
        }),
        ("corners of groups only", |asked| match asked.face.group {
            Some(_) => RIGHT(asked),
            None => Shown,
        }),
    ]);
}

/// The right reason, but another where the right one is a line.
fn other_line(asked: Asked, find: impl Fn(Asked, usize) -> Reason) -> Reason {
    match RIGHT(asked) {
        Line(row) => find(asked, row),
        reason => reason,
    }
}

#[test]
fn mistakes_in_the_row_are_told() {
    are_told(&[
        ("row 0", |asked| other_line(asked, |_, _| Line(0))),
        ("rows from 1", |asked| {
            other_line(asked, |_, row| Line(row + 1))
        }),
        ("its frame", |asked| {
            other_line(asked, |asked, row| Line(asked.lines[row].frame as usize))
        }),
        ("its group", |asked| {
            other_line(asked, |asked, row| Line(asked.lines[row].group as usize))
        }),
        ("among the group's lines", |asked| {
            other_line(asked, |asked, row| {
                Line(asked.of_group().filter(|&(other, _)| other < row).count())
            })
        }),
        ("among the lines not after the frame", |asked| {
            other_line(asked, |asked, row| {
                let before = asked.lines[..row].iter();
                Line(before.filter(|line| line.frame <= asked.frame).count())
            })
        }),
        ("among the lines by frame", |asked| {
            other_line(asked, |asked, row| {
                let own = asked.lines[row].frame;
                let lines = asked.lines.iter().enumerate();
                let before = |&(other, line): &Numbered| (line.frame, other) < (own, row);
                Line(lines.filter(before).count())
            })
        }),
        ("the first since it was shown", |asked| {
            other_line(asked, |asked, row| {
                let mut lines: Vec<Numbered> = asked.applying().collect();
                lines.sort_by_key(|(_, line)| line.frame);
                let hiding = lines.iter().rev().take_while(|(_, line)| !line.flag);
                Line(hiding.last().map_or(row, |(first, _)| *first))
            })
        }),
    ]);
}

/// The right reason, but that of another line where the group decides.
fn by_line(asked: Asked, line: Option<Numbered>) -> Reason {
    match (asked.first_free(), asked.face.group) {
        (None, Some(_)) => of_line(line),
        _ => RIGHT(asked),
    }
}

#[test]
fn mistakes_in_the_deciding_line_are_told() {
    are_told(&[
        ("the last in writing order", |asked| {
            by_line(asked, asked.applying().last())
        }),
        ("the first in writing order", |asked| {
            by_line(asked, asked.applying().next())
        }),
        ("the earlier of equals", |asked| {
            let lines = asked.applying().rev();
            by_line(asked, lines.max_by_key(|(_, line)| line.frame))
        }),
        ("one that hides among equals", |asked| {
            let lines = asked.applying();
            by_line(
                asked,
                lines.max_by_key(|(_, line)| (line.frame, !line.flag)),
            )
        }),
        ("the last that hides", |asked| {
            let lines = asked.applying().filter(|(_, line)| !line.flag);
            by_line(asked, lines.max_by_key(|(_, line)| line.frame))
        }),
        ("before the frame only", |asked| {
            let lines = asked
                .applying()
                .filter(|(_, line)| line.frame < asked.frame);
            by_line(asked, lines.max_by_key(|(_, line)| line.frame))
        }),
        ("after the frame too", |asked| {
            by_line(asked, asked.of_group().max_by_key(|(_, line)| line.frame))
        }),
        ("of any group", |asked| {
            let lines = asked.lines.iter().enumerate();
            let lines = lines.filter(|(_, line)| line.frame <= asked.frame);
            by_line(asked, lines.max_by_key(|(_, line)| line.frame))
        }),
    ]);
}

#[test]
fn mistakes_between_unset_and_line_are_told() {
    are_told(&[
        ("unset for line", |asked| other_line(asked, |_, _| Unset)),
        ("shown for line", |asked| other_line(asked, |_, _| Shown)),
        ("shown for unset", |asked| match RIGHT(asked) {
            Unset => Shown,
            reason => reason,
        }),
        ("row 0 for unset", |asked| match RIGHT(asked) {
            Unset => Line(0),
            reason => reason,
        }),
        ("unset only without a line at any frame", |asked| {
            let first = asked.of_group().min_by_key(|(_, line)| line.frame);
            by_line(asked, asked.deciding().or(first))
        }),
        ("shown throughout", |_| Shown),
    ]);
}
