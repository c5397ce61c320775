//! What the generated pairs cover of pattern lines in any order, and which
//! mistakes of a player they tell.

use independent::generate::{text, Kind};
use independent::movement::{Movement, Pattern};
use independent::pair::load_input;
use independent::play::{owner, shown};
use std::collections::{BTreeMap, BTreeSet};
use std::sync::OnceLock;

/// The seed and count of tests/compare.sh.
const SOUND: (u64, u64) = (5, 200);

/// A pair's movement, and the groups whose state is seen, each with whether it
/// is shown at each frame.
struct Played {
    movement: Movement,
    groups: BTreeMap<i64, Vec<bool>>,
}

/// A group is seen by a face with a bone at every corner.
fn played(text: &[u8]) -> Played {
    let pair = load_input(text).unwrap();
    let mut groups = BTreeMap::new();
    for (row, face) in pair.figure.faces.iter().enumerate() {
        let mut owners = face
            .vertices
            .iter()
            .map(|&point| owner(&pair.figure, point));
        if let Some(group) = face.group.filter(|_| owners.all(|owner| owner >= 0)) {
            let at = |frame| shown(&pair.figure, &pair.movement, row as i64, frame).unwrap();
            let states = (0..pair.movement.total_frames).map(at);
            groups.insert(group as i64, states.collect());
        }
    }
    Played {
        movement: pair.movement,
        groups,
    }
}

/// The pairs that the faces shown are compared on.
fn compared() -> &'static [Played] {
    static COMPARED: OnceLock<Vec<Played>> = OnceLock::new();
    COMPARED.get_or_init(|| {
        let (seed, count) = SOUND;
        let texts = (0..count).map(|index| text(Kind::SoundPairs, seed, index));
        texts.map(|text| played(&text)).collect()
    })
}

/// The lines of a group that are not after a frame, in writing order.
fn applying(
    lines: &[Pattern],
    group: i64,
    frame: i64,
) -> impl DoubleEndedIterator<Item = &Pattern> {
    let applies = move |line: &&Pattern| line.group == group && line.frame <= frame;
    lines.iter().filter(applies)
}

/// What the lines of a group at a frame are an example of.
fn examples(lines: &[Pattern], group: i64, frame: i64) -> Vec<&'static str> {
    let applying: Vec<&Pattern> = applying(lines, group, frame).collect();
    let Some(greatest) = applying.iter().map(|line| line.frame).max() else {
        return vec![match lines {
            [] => "no lines",
            _ if lines.iter().any(|line| line.group == group) => "none of the group yet",
            _ => "none of the group",
        }];
    };
    let equal = |row: &usize| applying[*row].frame == greatest;
    let rows: Vec<usize> = (0..applying.len()).filter(equal).collect();
    let deciding = rows[rows.len() - 1];
    let mut examples = vec!["decided"];
    if deciding > 0 {
        examples.push("decided not by the first");
    }
    if deciding + 1 < applying.len() {
        examples.push("decided not by the last");
    }
    if 0 < deciding && deciding + 1 < applying.len() {
        examples.push("decided by one between");
    }
    if rows
        .iter()
        .any(|&row| applying[row].flag != applying[deciding].flag)
    {
        examples.push("decided by the later of equals");
        if deciding + 1 < applying.len() {
            examples.push("decided by the later of equals, not the last");
        }
    }
    examples
}

/// In how many pairs each example is met.
#[test]
fn sound_pairs_have_lines_in_any_order() {
    let mut counts: BTreeMap<&str, usize> = BTreeMap::new();
    for Played { movement, groups } in compared() {
        let mut met = BTreeSet::new();
        for &group in groups.keys() {
            for frame in 0..movement.total_frames {
                met.extend(examples(&movement.patterns, group, frame));
            }
        }
        if movement
            .patterns
            .windows(2)
            .any(|two| two[0].frame > two[1].frame)
        {
            met.insert("a falling frame");
        }
        if movement.patterns.first().is_some_and(|line| line.frame > 0) {
            met.insert("start not first");
        }
        for example in met {
            *counts.entry(example).or_default() += 1;
        }
    }
    let kinds: Vec<&str> = counts.keys().copied().collect();
    let expected = [
        "a falling frame",
        "decided",
        "decided by one between",
        "decided by the later of equals",
        "decided by the later of equals, not the last",
        "decided not by the first",
        "decided not by the last",
        "no lines",
        "none of the group",
        "none of the group yet",
        "start not first",
    ];
    assert_eq!(kinds, expected);
    assert!(counts.values().all(|&count| count >= 10), "{counts:?}");
    let share = counts["decided not by the last"];
    assert!(3 * share > counts["decided"], "{counts:?}");
}

/// A way to find a group's state at a frame.
type State = fn(&[Pattern], i64, i64) -> bool;

fn flag(line: Option<&Pattern>) -> bool {
    line.is_some_and(|line| line.flag)
}

/// How many of the pairs that are compared tell a mistake.
fn told_by(mistake: State) -> usize {
    let told = |pair: &&Played| {
        let lines = &pair.movement.patterns;
        pair.groups.iter().any(|(&group, states)| {
            let mut frames = states.iter().zip(0..);
            frames.any(|(&state, frame)| mistake(lines, group, frame) != state)
        })
    };
    compared().iter().filter(told).count()
}

fn are_told(mistakes: &[(&str, State)]) {
    for &(name, mistake) in mistakes {
        let count = told_by(mistake);
        assert!(count >= 10, "{name}: {count}");
    }
}

/// The lines by frame, those of equal frames in writing order: then the last
/// decides.
#[test]
fn the_players_state_is_that_of_the_last_by_frame() {
    let last_by_frame: State = |lines, group, frame| {
        let mut lines: Vec<&Pattern> = applying(lines, group, frame).collect();
        lines.sort_by_key(|line| line.frame);
        flag(lines.last().copied())
    };
    assert_eq!(told_by(last_by_frame), 0);
}

#[test]
fn mistakes_in_the_deciding_line_are_told() {
    are_told(&[
        ("the last in writing order", |lines, group, frame| {
            flag(applying(lines, group, frame).last())
        }),
        ("the first in writing order", |lines, group, frame| {
            flag(applying(lines, group, frame).next())
        }),
        ("the least frame", |lines, group, frame| {
            flag(applying(lines, group, frame).min_by_key(|line| line.frame))
        }),
        ("any that shows", |lines, group, frame| {
            applying(lines, group, frame).any(|line| line.flag)
        }),
        ("none that hides", |lines, group, frame| {
            let mut lines = applying(lines, group, frame).peekable();
            lines.peek().is_some() && lines.all(|line| line.flag)
        }),
        ("up to a line after the frame", |lines, group, frame| {
            let lines = lines.iter().take_while(|line| line.frame <= frame);
            let lines = lines.filter(|line| line.group == group);
            flag(lines.max_by_key(|line| line.frame))
        }),
        ("up to one of its group after it", |lines, group, frame| {
            let lines = lines.iter().filter(|line| line.group == group);
            let lines = lines.take_while(|line| line.frame <= frame);
            flag(lines.max_by_key(|line| line.frame))
        }),
    ]);
}

#[test]
fn mistakes_among_equal_frames_are_told() {
    are_told(&[
        ("the earlier", |lines, group, frame| {
            flag(
                applying(lines, group, frame)
                    .rev()
                    .max_by_key(|line| line.frame),
            )
        }),
        ("one that shows", |lines, group, frame| {
            flag(applying(lines, group, frame).max_by_key(|line| (line.frame, line.flag)))
        }),
        ("one that hides", |lines, group, frame| {
            flag(applying(lines, group, frame).max_by_key(|line| (line.frame, !line.flag)))
        }),
    ]);
}

#[test]
fn mistakes_in_the_frames_and_the_group_are_told() {
    are_told(&[
        ("before the frame only", |lines, group, frame| {
            flag(applying(lines, group, frame - 1).max_by_key(|line| line.frame))
        }),
        ("after the frame too", |lines, group, _| {
            flag(applying(lines, group, i64::MAX).max_by_key(|line| line.frame))
        }),
        ("the frame itself only", |lines, group, frame| {
            flag(applying(lines, group, frame).rfind(|line| line.frame == frame))
        }),
        ("frame 0 throughout", |lines, group, _| {
            flag(applying(lines, group, 0).last())
        }),
        ("of any group", |lines, _, frame| {
            let lines = lines.iter().filter(|line| line.frame <= frame);
            flag(lines.max_by_key(|line| line.frame))
        }),
        ("shown without a line", |lines, group, frame| {
            let deciding = applying(lines, group, frame).max_by_key(|line| line.frame);
            deciding.is_none_or(|line| line.flag)
        }),
    ]);
}
