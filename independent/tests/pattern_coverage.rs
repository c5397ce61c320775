//! What the generated texts cover of pattern lines in any order, and which
//! mistakes of a reader in 16 they tell.

use independent::generate::{text, Kind};
use independent::movement::{self, Pattern};
use independent::number::{int, Reading};
use independent::pair::load_input;
use independent::refusal::Refusal;
use independent::token::{self, Kind as TokenKind};
use independent::{figure, limits, many};
use std::collections::BTreeMap;
use std::sync::OnceLock;

/// The seeds and counts of tests/compare.sh.
const SOUND: (u64, u64) = (1, 1_000);
const DAMAGED: (u64, u64) = (2, 3_000);
const DAMAGED_PAIRS: (u64, u64) = (6, 300);

fn texts(kind: Kind, (seed, count): (u64, u64)) -> impl Iterator<Item = Vec<u8>> {
    (0..count).map(move |index| text(kind, seed, index))
}

/// The pattern lines of a movement in which nothing is at fault but them.
struct Lines {
    total_frames: i64,
    lines: Vec<Pattern>,
    /// The row that 16 is given for, if it is.
    refused: Option<usize>,
}

/// Read word by word, as a text that is refused gives no lists.
fn lines_of(text: &[u8]) -> Option<Lines> {
    let refused = match movement::read(text, limits::MOVEMENT_ROOM) {
        Ok(_) => None,
        Err(Refusal { number: 16, place }) => Some(place as usize),
        Err(_) => return None,
    };
    let mut found = Lines {
        total_frames: 0,
        lines: Vec::new(),
        refused,
    };
    let tokens = token::lex(text, b";TRA").unwrap();
    let number = |at: usize| match int(tokens[at].bytes) {
        Reading::Value(value) => value,
        other => panic!("{other:?}"),
    };
    for at in 1..tokens.len() {
        if tokens[at - 1].kind != TokenKind::Open {
            continue;
        }
        match tokens[at].bytes {
            b"totalFrame" => found.total_frames = number(at + 1),
            b"kgf" => found.lines.push(Pattern {
                frame: number(at + 1),
                group: number(at + 2),
                flag: tokens[at + 3].bytes == b"true",
            }),
            _ => {}
        }
    }
    Some(found)
}

/// The movements that the listing is compared on.
fn compared() -> &'static [Vec<Lines>; 2] {
    static COMPARED: OnceLock<[Vec<Lines>; 2]> = OnceLock::new();
    COMPARED.get_or_init(|| {
        let kinds = [
            (Kind::SoundMovements, SOUND),
            (Kind::DamagedMovements, DAMAGED),
        ];
        kinds.map(|(kind, which)| {
            texts(kind, which)
                .filter_map(|text| lines_of(&text))
                .collect()
        })
    })
}

fn falls(lines: &[Pattern]) -> bool {
    lines.windows(2).any(|two| two[0].frame > two[1].frame)
}

fn rises(lines: &[Pattern]) -> bool {
    lines.windows(2).any(|two| two[0].frame < two[1].frame)
}

type Counts = BTreeMap<&'static str, usize>;

fn all_at_least(counts: &Counts, least: usize, kinds: &[&str]) {
    assert_eq!(counts.keys().copied().collect::<Vec<_>>(), kinds);
    assert!(counts.values().all(|&count| count >= least), "{counts:?}");
}

#[test]
fn sound_movements_have_lines_in_any_order() {
    let mut counts = Counts::new();
    for Lines { lines, refused, .. } in &compared()[0] {
        assert_eq!(*refused, None);
        let order = match (rises(lines), falls(lines)) {
            (true, true) => "both",
            (true, false) => "rising",
            (false, true) => "falling",
            (false, false) => "level",
        };
        *counts.entry(order).or_default() += 1;
        let start = lines.iter().position(|line| line.frame == 0);
        if start > Some(0) {
            *counts.entry("start not first").or_default() += 1;
        }
        let tie = |one: &Pattern, other: &Pattern| {
            (one.frame, one.group) == (other.frame, other.group) && one.flag != other.flag
        };
        if lines
            .iter()
            .any(|one| lines.iter().any(|other| tie(one, other)))
        {
            *counts.entry("tie").or_default() += 1;
        }
    }
    let kinds = [
        "both",
        "falling",
        "level",
        "rising",
        "start not first",
        "tie",
    ];
    all_at_least(&counts, 50, &kinds);
}

/// What is wrong with a line by itself.
fn own_fault(line: &Pattern, total_frames: i64) -> Option<&'static str> {
    match line.frame {
        ..=-1 => Some("frame below 0"),
        frame if frame == total_frames => Some("frame at the total"),
        frame if frame > total_frames => Some("frame past the total"),
        _ => (line.group < 0).then_some("group below 0"),
    }
}

/// What lines that are refused are an example of; the row must be the right
/// one for it.
fn examples(found: &Lines, row: usize) -> Vec<&'static str> {
    let lines = &found.lines;
    let faults: Vec<Option<&str>> = lines
        .iter()
        .map(|line| own_fault(line, found.total_frames))
        .collect();
    let first = faults.iter().position(|fault| fault.is_some());
    let mut starts = (0..lines.len()).filter(|&row| lines[row].frame == 0);
    if starts.clone().next().is_none() {
        assert_eq!(row, 0);
        return vec![match first {
            None if lines.len() == 1 => "no frame 0, one line",
            None => "no frame 0",
            Some(0) => "no frame 0, fault at row 0",
            Some(_) => "no frame 0, fault at a later row",
        }];
    }
    assert_eq!(Some(row), first);
    let mut examples = vec![faults[row].unwrap()];
    if starts.all(|start| start == row) && row > 0 {
        examples.push("only frame 0 of a bad group");
    }
    if faults.iter().flatten().count() > 1 {
        examples.push("two rows at fault");
    }
    if falls(&lines[..row]) {
        examples.push("behind a falling frame");
    }
    examples
}

#[test]
fn damaged_movements_meet_16_in_every_way() {
    let mut counts = Counts::new();
    for found in &compared()[1] {
        let examples = match found.refused {
            Some(row) => examples(found, row),
            None if falls(&found.lines) => vec!["a falling frame taken"],
            None => continue,
        };
        for example in examples {
            *counts.entry(example).or_default() += 1;
        }
    }
    let kinds = [
        "a falling frame taken",
        "behind a falling frame",
        "frame at the total",
        "frame below 0",
        "frame past the total",
        "group below 0",
        "no frame 0",
        "no frame 0, fault at a later row",
        "no frame 0, fault at row 0",
        "no frame 0, one line",
        "only frame 0 of a bad group",
        "two rows at fault",
    ];
    all_at_least(&counts, 10, &kinds);
}

/// A way to find the row at fault, of the total and the lines.
type Rule = fn(i64, &[Pattern]) -> Option<usize>;

fn has_start(lines: &[Pattern]) -> bool {
    lines.iter().any(|line| line.frame == 0)
}

fn first_fault(total_frames: i64, lines: &[Pattern]) -> Option<usize> {
    let mut lines = lines.iter();
    lines.position(|line| own_fault(line, total_frames).is_some())
}

fn right(total_frames: i64, lines: &[Pattern]) -> Option<usize> {
    if !lines.is_empty() && !has_start(lines) {
        return Some(0);
    }
    first_fault(total_frames, lines)
}

/// How many of the movements that are compared tell a mistake.
fn told_by(mistake: Rule) -> usize {
    let movements = compared().iter().flatten();
    let told = movements.filter(|found| mistake(found.total_frames, &found.lines) != found.refused);
    told.count()
}

fn are_told(mistakes: &[(&str, Rule)]) {
    assert_eq!(told_by(right), 0);
    for &(name, mistake) in mistakes {
        let count = told_by(mistake);
        assert!(count >= 10, "{name}: {count}");
    }
}

/// The rule that frames begin at 0 and never fall, and halves of it.
#[test]
fn mistakes_in_the_order_are_told() {
    are_told(&[
        ("begins at 0 and never falls", |total, lines| {
            (0..lines.len()).find(|&row| {
                let least = row.checked_sub(1).map_or(0, |before| lines[before].frame);
                let starts_right = row > 0 || lines[row].frame == 0;
                let fault = own_fault(&lines[row], total).is_some();
                !starts_right || fault || lines[row].frame < least
            })
        }),
        ("begins at 0", |total, lines| {
            let first = lines.first().filter(|line| line.frame != 0);
            first.map(|_| 0).or(first_fault(total, lines))
        }),
        ("never falls", |total, lines| {
            let fall = (1..lines.len()).find(|&row| lines[row - 1].frame > lines[row].frame);
            let rows = [right(total, lines), fall];
            rows.into_iter().flatten().min()
        }),
        ("ends at 0", |total, lines| {
            let last = lines.last().filter(|line| line.frame != 0);
            last.map(|_| 0).or(first_fault(total, lines))
        }),
    ]);
}

#[test]
fn mistakes_in_the_frame_0_are_told() {
    are_told(&[
        ("not needed", first_fault),
        ("needed of no lines", |total, lines| {
            (!has_start(lines))
                .then_some(0)
                .or(first_fault(total, lines))
        }),
        ("only of a group that is not below 0", |total, lines| {
            let started = lines.iter().any(|line| line.frame == 0 && line.group >= 0);
            let lacks = !lines.is_empty() && !started;
            lacks.then_some(0).or(first_fault(total, lines))
        }),
        ("of every group", |total, lines| {
            let started = |group| {
                lines
                    .iter()
                    .any(|line| line.frame == 0 && line.group == group)
            };
            let lacks = !lines.iter().all(|line| started(line.group));
            lacks.then_some(0).or(first_fault(total, lines))
        }),
        ("behind the other faults", |total, lines| {
            let other = first_fault(total, lines);
            other.or((!lines.is_empty() && !has_start(lines)).then_some(0))
        }),
        ("at the last row", |total, lines| match lines.len() {
            1.. if !has_start(lines) => Some(lines.len() - 1),
            _ => first_fault(total, lines),
        }),
        ("at the row of the least frame", |total, lines| {
            let least = (0..lines.len()).min_by_key(|&row| lines[row].frame);
            least
                .filter(|_| !has_start(lines))
                .or(first_fault(total, lines))
        }),
    ]);
}

#[test]
fn mistakes_in_a_lines_own_rule_are_told() {
    are_told(&[
        ("the total taken", |total, lines| right(total + 1, lines)),
        ("no most", |_, lines| right(i64::MAX, lines)),
        ("one frame less", |total, lines| right(total - 1, lines)),
        ("frames below 0 taken", |total, lines| {
            let lacks = !lines.is_empty() && !has_start(lines);
            let fault = |line: &Pattern| line.frame >= total || line.group < 0;
            lacks.then_some(0).or(lines.iter().position(fault))
        }),
        ("groups below 0 taken", |total, lines| {
            let lacks = !lines.is_empty() && !has_start(lines);
            let fault = |line: &Pattern| line.frame < 0 || line.frame >= total;
            lacks.then_some(0).or(lines.iter().position(fault))
        }),
        ("the last row", |total, lines| match right(total, lines) {
            Some(_) if has_start(lines) => {
                let mut lines = lines.iter();
                lines.rposition(|line| own_fault(line, total).is_some())
            }
            row => row,
        }),
    ]);
}

/// 20 is at the lowest row of an unknown group, not at the lowest frame.
#[test]
fn damaged_pairs_have_unknown_groups_out_of_order() {
    let mut told = 0;
    for text in texts(Kind::DamagedPairs, DAMAGED_PAIRS) {
        let Some(row) = refused_with_20(&text) else {
            continue;
        };
        let (figure, movement) = many::split_first(&text).unwrap();
        let figure = figure::read(figure, limits::FIGURE_ROOM).unwrap();
        let lines = lines_of(movement).unwrap().lines;
        let is_unknown = |&row: &usize| lines[row].group >= figure.groups.len() as i64;
        let unknown = (0..lines.len()).filter(is_unknown);
        told += usize::from(unknown.min_by_key(|&row| lines[row].frame) != Some(row));
    }
    assert!(told > 0);
}

fn refused_with_20(text: &[u8]) -> Option<usize> {
    let refusal = load_input(text).err()?.refusal;
    (refusal.number == 20).then_some(refusal.place as usize)
}
