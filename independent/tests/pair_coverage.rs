//! What the generated pairs cover, and which mistakes of a loader they tell.

use independent::generate::rng::Rng;
use independent::generate::{pair, text, Kind};
use independent::many::split_first;
use independent::pair::{load_input, name_bytes, Pair, PairRefusal};
use independent::play::shown;
use independent::{figure, limits, movement};
use std::collections::{BTreeMap, BTreeSet};
use std::sync::OnceLock;

/// The seeds and counts of tests/compare.sh.
const SOUND: (u64, u64) = (5, 200);
const DAMAGED: (u64, u64) = (6, 300);

fn texts(kind: Kind, (seed, count): (u64, u64)) -> Vec<Vec<u8>> {
    (0..count).map(|index| text(kind, seed, index)).collect()
}

#[test]
fn sound_pairs_load_and_vary() {
    let texts = texts(Kind::SoundPairs, (1, 1_000));
    let pairs: Vec<Pair> = texts.iter().map(|text| load_input(text).unwrap()).collect();
    // A bone's two names: absent, empty or not, in every combination.
    let mut names = BTreeMap::new();
    let mut lengths = BTreeSet::new();
    for pair in &pairs {
        for (ours, theirs) in pair.figure.bones.iter().zip(&pair.movement.bones) {
            let both = [ours.name, theirs.name];
            let kinds = both.map(|name| name.map(|name| name.length > 0));
            *names.entry(kinds).or_insert(0) += 1;
            lengths.extend(both.iter().flatten().map(|name| name.length));
        }
    }
    assert_eq!(names.len(), 9);
    assert!(names.values().all(|&count| count > 50), "{names:?}");
    assert!(lengths.contains(&1) && lengths.contains(&limits::STRING_BYTES));

    let most = |count: fn(&Pair) -> usize| pairs.iter().map(count).max().unwrap();
    assert_eq!(most(|pair| pair.figure.bones.len()), limits::BONES);
    assert_eq!(most(|pair| pair.figure.groups.len()), limits::GROUPS);
    assert_eq!(most(|pair| pair.movement.key_count()), limits::KEYS);
    assert_eq!(most(|pair| pair.movement.patterns.len()), limits::PATTERNS);
    let grouped = |pair: &&Pair| !pair.figure.groups.is_empty();
    let patterned = |pair: &&Pair| !pair.movement.patterns.is_empty();
    let in_both = pairs.iter().filter(grouped).filter(patterned).count();
    let without = pairs.iter().filter(|pair| !grouped(pair)).count();
    assert!(in_both > 400 && without > 100, "{in_both} {without}");
}

/// Faces of groups that are shown at some frames and not at others.
#[test]
fn sound_pairs_have_faces_that_come_and_go() {
    let mut changing = 0;
    for text in texts(Kind::SoundPairs, SOUND) {
        let pair = load_input(&text).unwrap();
        for face in 0..pair.figure.faces.len() as i64 {
            let at = |frame| shown(&pair.figure, &pair.movement, face, frame).unwrap();
            let first = at(0);
            let frames = 1..pair.movement.total_frames;
            changing += usize::from(frames.map(at).any(|shown| shown != first));
        }
    }
    assert!(changing > 50, "{changing}");
}

/// Every list at its most fits both texts, and they load.
#[test]
fn full_pairs_load() {
    for index in 0..20 {
        let mut rng = Rng::new(1, index);
        let text = pair::full(&mut rng).text(&mut rng);
        let pair = load_input(&text).unwrap();
        assert_eq!(pair.movement.total(), limits::MOVEMENT_ROOM);
        assert_eq!(pair.figure.bones.len(), limits::BONES);
        assert!(pair.figure.total() > 6_000);
    }
}

/// How often each number occurs in each file.
fn refusals(count: u64) -> BTreeMap<(u8, u8), usize> {
    let mut counts = BTreeMap::new();
    for text in texts(Kind::DamagedPairs, (1, count)) {
        if let Err(PairRefusal { file, refusal }) = load_input(&text) {
            *counts.entry((file, refusal.number)).or_default() += 1;
        }
    }
    counts
}

#[test]
fn damaged_pairs_meet_every_refusal() {
    let counts = refusals(500);
    for number in 18..=20 {
        assert!(counts[&(2, number)] > 20, "{counts:?}");
    }
    // 17 cannot occur in a movement: the room is the greatest total.
    let in_figure = (1..=13).chain([17]).map(|number| (0, number));
    let in_movement = (1..=8).chain(14..=16).map(|number| (1, number));
    let in_pair = (18..=20).map(|number| (2, number));
    let all: Vec<(u8, u8)> = in_figure.chain(in_movement).chain(in_pair).collect();
    let numbers: Vec<(u8, u8)> = refusals(3_000).into_keys().collect();
    assert_eq!(numbers, all);
}

/// Heads that are none, lengths past the end, and long texts.
#[test]
fn damaged_pairs_have_damaged_records() {
    let mut seen = BTreeSet::new();
    for text in texts(Kind::DamagedPairs, DAMAGED) {
        let head = text.split_at_checked(9);
        let length = head
            .filter(|(head, _)| head[8] == b'\n')
            .and_then(|(head, _)| std::str::from_utf8(&head[..8]).ok())
            .filter(|digits| digits.bytes().all(|digit| digit.is_ascii_digit()))
            .and_then(|digits| digits.parse::<usize>().ok());
        let rest = head.map_or(0, |(_, rest)| rest.len());
        let long = |length: usize| match length {
            131_075.. => "far beyond the most",
            65_537.. => "beyond the most",
            65_536 => "the most",
            _ => "fewer",
        };
        seen.insert(match length {
            None => ("no head", ""),
            Some(length) if length > rest => ("past the end", long(length)),
            Some(length) => ("figure", long(length)),
        });
        if let Some(length) = length.filter(|&length| length <= rest) {
            seen.insert(("movement", long(rest - length)));
        }
    }
    let lengths = [
        "fewer",
        "the most",
        "beyond the most",
        "far beyond the most",
    ];
    let mut expected = BTreeSet::from([("no head", "")]);
    for kind in ["figure", "movement", "past the end"] {
        expected.extend(lengths.map(|length| (kind, length)));
    }
    assert_eq!(seen, expected);
}

/// Whether two names of a bone do not go together.
type NamesDiffer = fn(&[u8], &[u8]) -> bool;

/// A way to check a pair whose texts are both taken.
#[derive(Clone, Copy)]
struct Check {
    order: [u8; 3],
    count_place: fn([usize; 2]) -> usize,
    names_differ: NamesDiffer,
    /// Of a group and the number of groups.
    unknown: fn(i64, i64) -> bool,
    last_row: bool,
}

fn right_names(ours: &[u8], theirs: &[u8]) -> bool {
    !ours.is_empty() && !theirs.is_empty() && ours != theirs
}

const RIGHT: Check = Check {
    order: [18, 19, 20],
    count_place: |[_, movement]| movement,
    names_differ: right_names,
    unknown: |group, groups| group >= groups,
    last_row: false,
};

impl Check {
    fn row(&self, rows: impl Iterator<Item = bool>) -> Option<usize> {
        let faults: Vec<bool> = rows.collect();
        if self.last_row {
            faults.iter().rposition(|&fault| fault)
        } else {
            faults.iter().position(|&fault| fault)
        }
    }

    /// The number and place of the first fault; none for texts that are not
    /// taken one by one.
    fn fault(&self, text: &[u8]) -> Option<(u8, usize)> {
        let (figure_text, movement_text) = split_first(text).ok()?;
        let figure = figure::read(figure_text, limits::FIGURE_ROOM).ok()?;
        let movement = movement::read(movement_text, limits::MOVEMENT_ROOM).ok()?;
        let counts = [figure.bones.len(), movement.bones.len()];
        let bones = figure.bones.iter().zip(&movement.bones);
        let groups = figure.groups.len() as i64;
        let place = |number| match number {
            18 => (counts[0] != counts[1]).then(|| (self.count_place)(counts)),
            19 => self.row(bones.clone().map(|(ours, theirs)| {
                let ours = name_bytes(figure_text, ours.name);
                (self.names_differ)(ours, name_bytes(movement_text, theirs.name))
            })),
            _ => {
                let lines = movement.patterns.iter();
                self.row(lines.map(|line| (self.unknown)(line.group, groups)))
            }
        };
        let mut faults = self.order.iter();
        faults.find_map(|&number| Some((number, place(number)?)))
    }
}

/// The pairs of the comparison.
fn compared() -> &'static [Vec<u8>] {
    static PAIRS: OnceLock<Vec<Vec<u8>>> = OnceLock::new();
    PAIRS.get_or_init(|| {
        let mut pairs = texts(Kind::DamagedPairs, DAMAGED);
        pairs.extend(texts(Kind::SoundPairs, SOUND));
        pairs
    })
}

/// Whether some pair of the comparison is checked in two ways.
fn told_apart(one: &Check, other: &Check) -> bool {
    compared()
        .iter()
        .any(|text| one.fault(text) != other.fault(text))
}

fn told(mistaken: &Check) -> bool {
    told_apart(mistaken, &RIGHT)
}

#[test]
fn the_right_check_is_the_loaders() {
    for text in texts(Kind::DamagedPairs, (2, 500)) {
        let found = load_input(&text).err();
        let found = found.filter(|found| found.file == 2);
        let found = found.map(|found| (found.refusal.number, found.refusal.place as usize));
        assert_eq!(RIGHT.fault(&text), found);
    }
}

#[test]
fn mistakes_in_the_order_are_told() {
    for order in [
        [18, 20, 19],
        [19, 18, 20],
        [19, 20, 18],
        [20, 18, 19],
        [20, 19, 18],
        [18, 19, 19],
        [18, 20, 20],
        [19, 20, 20],
    ] {
        assert!(told(&Check { order, ..RIGHT }), "{order:?}");
    }
    let last_row = true;
    assert!(told(&Check { last_row, ..RIGHT }));
    for number in [19, 20] {
        let order = [18, number, number];
        let lowest = Check { order, ..RIGHT };
        let highest = Check { last_row, ..lowest };
        assert!(told_apart(&lowest, &highest));
    }
}

#[test]
fn mistakes_in_18_and_20_are_told() {
    let count_place = |[figure, _]: [usize; 2]| figure;
    assert!(told(&Check {
        count_place,
        ..RIGHT
    }));
    let unknowns: [fn(i64, i64) -> bool; 4] = [
        |group, groups| group > groups,
        |group, groups| group > groups + 1,
        |group, groups| group + 1 >= groups,
        |group, _| group >= limits::GROUPS as i64,
    ];
    for unknown in unknowns {
        assert!(told(&Check { unknown, ..RIGHT }));
    }
}

#[test]
fn mistakes_in_19_are_told() {
    let mistakes: [(&str, NamesDiffer); 11] = [
        ("one empty", |ours, theirs| ours != theirs),
        ("ours empty", |ours, theirs| {
            !theirs.is_empty() && ours != theirs
        }),
        ("theirs empty", |ours, theirs| {
            !ours.is_empty() && ours != theirs
        }),
        ("lengths", |ours, theirs| {
            right_names(ours, theirs) && ours.len() != theirs.len()
        }),
        ("contents", |ours, theirs| {
            right_names(ours, theirs) && ours.len() == theirs.len()
        }),
        ("ours begins theirs", |ours, theirs| {
            right_names(ours, theirs) && !theirs.starts_with(ours)
        }),
        ("theirs begins ours", |ours, theirs| {
            right_names(ours, theirs) && !ours.starts_with(theirs)
        }),
        ("first byte", |ours, theirs| {
            right_names(ours, theirs) && ours[0] != theirs[0]
        }),
        ("last byte", |ours, theirs| {
            right_names(ours, theirs) && ours.last() != theirs.last()
        }),
        ("all but the last byte", |ours, theirs| {
            let last = ours.len().saturating_sub(1);
            right_names(ours, theirs)
                && (ours.len() != theirs.len() || ours[..last] != theirs[..last])
        }),
        ("case", |ours, theirs| {
            right_names(ours, theirs) && !ours.eq_ignore_ascii_case(theirs)
        }),
    ];
    for (mistake, names_differ) in mistakes {
        let check = Check {
            names_differ,
            ..RIGHT
        };
        assert!(told(&check), "{mistake}");
    }
}

/// Of names that are both not empty a loaded pair has only equal ones, so
/// that each mistake here is one about empty or absent names.
#[test]
fn mistakes_in_a_bones_name_are_told() {
    type Label = for<'a> fn(Option<&'a [u8]>, Option<&'a [u8]>) -> Option<&'a [u8]>;
    let mistakes: [Label; 4] = [
        |ours, _| ours,
        |_, theirs| theirs,
        |ours, theirs| theirs.or(ours),
        |ours, theirs| ours.or(theirs),
    ];
    let texts = texts(Kind::SoundPairs, SOUND);
    let pairs: Vec<Pair> = texts.iter().map(|text| load_input(text).unwrap()).collect();
    for mistake in mistakes {
        assert!(pairs.iter().any(|pair| {
            let mut bones = pair.figure.bones.iter().zip(&pair.movement.bones);
            bones.any(|(ours, theirs)| {
                let ours = ours.name.map(|_| name_bytes(pair.figure_text, ours.name));
                let theirs = theirs
                    .name
                    .map(|_| name_bytes(pair.movement_text, theirs.name));
                let right = theirs.filter(|name| !name.is_empty()).or(ours);
                mistake(ours, theirs).unwrap_or_default() != right.unwrap_or_default()
            })
        }));
    }
}
