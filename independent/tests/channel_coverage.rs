//! What the generated texts cover of channels left out, and which mistakes of
//! a reader they tell.

use independent::generate::movement::CHANNELS;
use independent::generate::{text, Kind};
use independent::listing::movement_rows;
use independent::movement::{self, Bone, Key, Movement, DEFAULTS};
use independent::pair::load_input;
use independent::refusal::Refusal;
use independent::token::{self, Kind as TokenKind, Token};
use independent::{limits, many};
use std::collections::{BTreeMap, BTreeSet};
use std::sync::OnceLock;

/// The seeds and counts of tests/compare.sh.
const SOUND: (u64, u64) = (1, 1_000);
const DAMAGED: (u64, u64) = (2, 3_000);
const SOUND_PAIRS: (u64, u64) = (5, 200);
const DAMAGED_PAIRS: (u64, u64) = (6, 300);

fn texts(kind: Kind, (seed, count): (u64, u64)) -> impl Iterator<Item = Vec<u8>> {
    (0..count).map(move |index| text(kind, seed, index))
}

/// The sound movements that the listing is compared on.
fn sound() -> &'static [Movement] {
    static MOVEMENTS: OnceLock<Vec<Movement>> = OnceLock::new();
    MOVEMENTS.get_or_init(|| {
        let texts = texts(Kind::SoundMovements, SOUND);
        texts
            .map(|text| movement::read(&text, limits::MOVEMENT_ROOM).unwrap())
            .collect()
    })
}

/// In how many texts each example is met.
type Counts = BTreeMap<&'static str, usize>;

fn count(counts: &mut Counts, examples: impl IntoIterator<Item = &'static str>) {
    for example in examples.into_iter().collect::<BTreeSet<_>>() {
        *counts.entry(example).or_default() += 1;
    }
}

/// There are these examples, each in so many texts or more.
fn are_met(counts: &Counts, least: &[(&str, usize)]) {
    let names: Vec<&str> = least.iter().map(|example| example.0).collect();
    assert_eq!(counts.keys().copied().collect::<Vec<_>>(), names);
    for &(name, least) in least {
        assert!(counts[name] >= least, "{name}: {counts:?}");
    }
}

fn is_default(channel: usize, keys: &[Key]) -> bool {
    keys.iter().all(|key| key.value == DEFAULTS[channel])
}

fn channel_examples(channel: usize, keys: &[Key]) -> Vec<&'static str> {
    match keys.len() {
        0 => vec!["left out"],
        1 if is_default(channel, keys) => vec!["written", "one key at the default"],
        _ if is_default(channel, keys) => vec!["written", "more keys at the default"],
        _ => vec!["written"],
    }
}

#[test]
fn each_channel_is_left_out_and_written() {
    for channel in 0..10 {
        let mut counts = Counts::new();
        for movement in sound() {
            let of_bone = |bone: &Bone| channel_examples(channel, &bone.channels[channel]);
            count(&mut counts, movement.bones.iter().flat_map(of_bone));
        }
        let least = [
            ("left out", 300),
            ("more keys at the default", 50),
            ("one key at the default", 50),
            ("written", 600),
        ];
        are_met(&counts, &least);
    }
}

/// The channels of a bone that stand.
fn standing(bone: &Bone) -> Vec<usize> {
    let stands = |&channel: &usize| !bone.channels[channel].is_empty();
    (0..10).filter(stands).collect()
}

fn is_whole(bone: &Bone) -> bool {
    standing(bone).len() == 10
}

fn bone_examples(bone: &Bone) -> Vec<&'static str> {
    let standing = standing(bone);
    let mut examples = vec![match (standing.len(), bone.name) {
        (0, None) => "none, without a name",
        (0, Some(_)) => "none, with a name",
        (1, _) => "one",
        (2..=8, _) => "some",
        (9, _) => "nine",
        _ => "all",
    }];
    if standing == [0, 1, 2, 6, 7, 8, 9] {
        examples.push("no scale");
    }
    if standing.windows(2).any(|two| two[0] + 1 < two[1]) {
        examples.push("left out between two");
    }
    examples
}

fn movement_examples(movement: &Movement) -> Vec<&'static str> {
    let bones = &movement.bones;
    let mut examples: Vec<&str> = bones.iter().flat_map(bone_examples).collect();
    if bones.iter().all(is_whole) {
        examples.push("all in every bone");
    }
    let lacking = bones.iter().position(|bone| !is_whole(bone));
    let last = bones.iter().rposition(|bone| !standing(bone).is_empty());
    if lacking < last && lacking.is_some() {
        examples.push("keys behind a bone that lacks some");
    }
    let channels = movement.channels().filter(|keys| !keys.is_empty()).count();
    match (bones.len(), movement.key_count()) {
        (limits::BONES, 0) => examples.push("most bones, no keys"),
        (limits::BONES, _) if channels < 10 * limits::BONES => {
            examples.push("most bones, some channels");
        }
        (_, limits::KEYS) if channels <= 3 => examples.push("most keys, few channels"),
        (_, limits::KEYS) => examples.push("most keys, more channels"),
        _ => {}
    }
    examples
}

#[test]
fn sound_movements_have_and_lack_channels() {
    let mut counts = Counts::new();
    for movement in sound() {
        count(&mut counts, movement_examples(movement));
    }
    let least = [
        ("all", 300),
        ("all in every bone", 200),
        ("keys behind a bone that lacks some", 250),
        ("left out between two", 300),
        ("most bones, no keys", 1),
        ("most bones, some channels", 1),
        ("most keys, few channels", 1),
        ("most keys, more channels", 1),
        ("nine", 100),
        ("no scale", 100),
        ("none, with a name", 50),
        ("none, without a name", 25),
        ("one", 100),
        ("some", 300),
    ];
    are_met(&counts, &least);
}

/// What is met of a movement's bones up to a place in its text.
#[derive(Default)]
struct Met<'a> {
    /// The channels of each bone as written, each with how many keys it has.
    bones: Vec<Vec<(usize, usize)>>,
    /// The keywords of the chunks that are open.
    open: Vec<&'a [u8]>,
    /// Whether a keyword is next.
    opens: bool,
}

fn channel_of(word: &[u8]) -> Option<usize> {
    let mut channels = CHANNELS.iter();
    channels.position(|channel| channel.as_bytes() == word)
}

impl<'a> Met<'a> {
    fn up_to(tokens: &[Token<'a>], end: usize) -> Met<'a> {
        let mut met = Met::default();
        for token in tokens.iter().take_while(|token| token.offset < end) {
            match token.kind {
                TokenKind::Word if met.opens => met.keyword(token.bytes),
                TokenKind::Close => {
                    met.open.pop();
                }
                _ => {}
            }
            met.opens = token.kind == TokenKind::Open;
        }
        met
    }

    fn keyword(&mut self, word: &'a [u8]) {
        self.open.push(word);
        if word == b"bone" {
            self.bones.push(Vec::new());
        } else if let Some(bone) = self.bones.last_mut() {
            bone.extend(channel_of(word).map(|channel| (channel, 0)));
            if let (b"kf", Some(channel)) = (word, bone.last_mut()) {
                channel.1 += 1;
            }
        }
    }

    fn key_count(&self) -> usize {
        self.bones.iter().flatten().map(|channel| channel.1).sum()
    }
}

/// What a text that is refused with 5 at a bone's chunks is an example of.
fn chunk_example(tokens: &[Token], place: usize) -> Option<&'static str> {
    let met = Met::up_to(tokens, place);
    let refused = tokens.iter().find(|token| token.offset == place)?;
    let bone = met.bones.last()?;
    let channel = channel_of(refused.bytes);
    match (&met.open[..], met.opens, refused.kind) {
        ([b"Figure", b"bone", word], false, TokenKind::Close) => {
            channel_of(word)?;
            assert_eq!(bone.last().unwrap().1, 0);
            Some("a channel without a key")
        }
        ([b"Figure", b"bone"], false, TokenKind::Open) => {
            assert_eq!(bone.len(), 10);
            Some("an eleventh chunk")
        }
        ([b"Figure", b"bone"], true, TokenKind::Word) if channel.is_some() => {
            assert!(bone.iter().any(|&(before, _)| Some(before) == channel));
            // The other channels that the bone has, here or behind.
            let all = Met::up_to(tokens, usize::MAX);
            let all = all.bones[met.bones.len() - 1].iter();
            match all.map(|each| each.0).collect::<BTreeSet<_>>().len() {
                10 => Some("a channel repeated among all"),
                _ => Some("a channel repeated, others left out"),
            }
        }
        ([b"Figure", b"bone"], true, TokenKind::Word) => match (refused.bytes, bone.len()) {
            (b"name", 0) => Some("a second name"),
            (b"name", _) => Some("a name behind a channel"),
            (_, 0..=3) => Some("no channel behind few"),
            _ => Some("no channel behind more"),
        },
        ([b"Figure", b"bone"], true, _) => Some("no keyword"),
        ([b"Figure"], true, _) => channel.map(|_| "a channel behind its bone"),
        _ => None,
    }
}

/// What a text that is refused with 15 at a row is an example of.
fn key_example(tokens: &[Token], row: usize) -> Option<&'static str> {
    let mut end = 0;
    let mut left_out = 0;
    for bone in Met::up_to(tokens, usize::MAX).bones {
        for channel in 0..10 {
            let Some(&(_, keys)) = bone.iter().find(|each| each.0 == channel) else {
                left_out += 1;
                continue;
            };
            end += keys;
            match left_out {
                _ if row >= end => {}
                0 => return Some("a key behind channels that stand"),
                _ => return Some("a key behind a channel left out"),
            }
        }
    }
    panic!("no such row: {row}");
}

/// What a text that has too many rows is an example of.
fn row_example(tokens: &[Token], list: usize) -> Option<&'static str> {
    const BONES: usize = limits::BONES + 1;
    const KEYS: usize = limits::KEYS + 1;
    let met = Met::up_to(tokens, usize::MAX);
    let channels = met.bones.iter().flatten().count();
    match (list, met.bones.len(), met.key_count()) {
        (0, BONES, 0) => Some("a bone too many, no keys"),
        (1, _, KEYS) if channels <= 3 => Some("a key too many, few channels"),
        _ => None,
    }
}

/// What a movement, taken or refused, is an example of.
fn damaged_example(text: &[u8]) -> Option<&'static str> {
    let Refusal { number, place } = match movement::read(text, limits::MOVEMENT_ROOM) {
        Ok(movement) if movement.bones.iter().all(is_whole) => return None,
        Ok(_) => return Some("taken, some left out"),
        Err(refusal) => refusal,
    };
    let example = match number {
        5 => chunk_example,
        8 => row_example,
        15 => key_example,
        _ => return None,
    };
    example(&token::lex(text, b";TRA").unwrap(), place as usize)
}

#[test]
fn damaged_movements_are_refused_for_their_bones() {
    let mut counts = Counts::new();
    for text in texts(Kind::DamagedMovements, DAMAGED) {
        count(&mut counts, damaged_example(&text));
    }
    let least = [
        ("a bone too many, no keys", 3),
        ("a channel behind its bone", 15),
        ("a channel repeated among all", 5),
        ("a channel repeated, others left out", 10),
        ("a channel without a key", 20),
        ("a key behind a channel left out", 100),
        ("a key behind channels that stand", 100),
        ("a key too many, few channels", 3),
        ("a name behind a channel", 15),
        ("a second name", 3),
        ("an eleventh chunk", 20),
        ("no channel behind few", 20),
        ("no channel behind more", 10),
        ("no keyword", 5),
        ("taken, some left out", 70),
    ];
    are_met(&counts, &least);
}

/// The keyword of a bone's chunk that is refused, if it is one.
fn refused_keyword(text: &[u8]) -> Option<Vec<u8>> {
    let Err(Refusal { number: 5, place }) = movement::read(text, limits::MOVEMENT_ROOM) else {
        return None;
    };
    let tokens = token::lex(text, b";TRA").unwrap();
    let met = Met::up_to(&tokens, place as usize);
    let in_bone = met.opens && met.open == [&b"Figure"[..], b"bone"];
    let refused = tokens.iter().find(|token| token.offset == place as usize)?;
    in_bone.then(|| refused.bytes.to_vec())
}

/// Parts of a channel's keyword, more than one, and other letters.
#[test]
fn damaged_movements_have_keywords_like_a_channels() {
    let texts = texts(Kind::DamagedMovements, DAMAGED);
    let keywords: BTreeSet<Vec<u8>> = texts.filter_map(|text| refused_keyword(&text)).collect();
    for keyword in [
        "translate",
        "scale",
        "rotate",
        "roll.x",
        "Roll",
        "scale.w",
        "translate.X",
    ] {
        assert!(keywords.contains(keyword.as_bytes()), "{keyword}");
    }
}

#[test]
fn sound_pairs_have_and_lack_channels() {
    let mut counts = Counts::new();
    for text in texts(Kind::SoundPairs, SOUND_PAIRS) {
        let movement = load_input(&text).unwrap().movement;
        count(&mut counts, movement_examples(&movement));
    }
    for (example, least) in [
        ("all in every bone", 30),
        ("keys behind a bone that lacks some", 50),
        ("none, with a name", 20),
        ("none, without a name", 3),
        ("one", 20),
        ("some", 50),
    ] {
        assert!(counts[example] >= least, "{example}: {counts:?}");
    }
}

/// The refusals of a pair are met where channels are left out, and a movement's
/// own in pairs.
#[test]
fn damaged_pairs_have_and_lack_channels() {
    let mut counts = [Counts::new(), Counts::new()];
    for text in texts(Kind::DamagedPairs, DAMAGED_PAIRS) {
        let file = load_input(&text).map_or_else(|found| found.file, |_| 0);
        if let (Ok((_, movement)), 1..) = (many::split_first(&text), file) {
            let example = damaged_example(movement);
            count(&mut counts[usize::from(file) - 1], example);
        }
    }
    assert!(counts[0].values().sum::<usize>() >= 3, "{counts:?}");
    are_met(&counts[1], &[("taken, some left out", 50)]);
}

/// A way to list the channels of a movement.
#[derive(Clone, Copy)]
struct Form {
    /// The pair of a channel that is left out, of the row that is next.
    pair: fn(i64) -> [i64; 2],
    /// How many rows it takes.
    rows: i64,
    /// Whether a channel that is written is taken to be left out.
    dropped: fn(usize, &[Key]) -> bool,
}

const RIGHT: Form = Form {
    pair: |_| [0, 0],
    rows: 0,
    dropped: |_, _| false,
};

impl Form {
    /// The pairs of all channels, by bone and channel number.
    fn pairs(&self, movement: &Movement) -> Vec<i64> {
        let mut next_row = 0;
        let mut pairs = Vec::new();
        for bone in &movement.bones {
            for (channel, keys) in bone.channels.iter().enumerate() {
                let count = keys.len() as i64;
                if count == 0 || (self.dropped)(channel, keys) {
                    pairs.extend((self.pair)(next_row));
                    next_row += self.rows;
                } else {
                    pairs.extend([next_row, count]);
                    next_row += count;
                }
            }
        }
        pairs
    }

    /// How many of the movements that are compared tell this form.
    fn told_by(&self) -> usize {
        let told = |movement: &&Movement| self.pairs(movement) != listed(movement);
        sound().iter().filter(told).count()
    }
}

/// The pairs of all channels as they are listed.
fn listed(movement: &Movement) -> Vec<i64> {
    let rows = movement_rows(movement).into_iter();
    let bones = rows.filter(|row| row.0 == "bone");
    bones.flat_map(|row| row.1[2..].to_vec()).collect()
}

fn are_told(mistakes: &[(&str, Form)]) {
    assert_eq!(RIGHT.told_by(), 0);
    for (name, mistake) in mistakes {
        let count = mistake.told_by();
        assert!(count >= 150, "{name}: {count}");
    }
}

#[test]
fn mistakes_in_the_pair_of_a_channel_left_out_are_told() {
    let of = |pair, rows| Form {
        pair,
        rows,
        ..RIGHT
    };
    are_told(&[
        ("the row where it would begin", of(|next| [next, 0], 0)),
        ("no row", of(|_| [-1, 0], 0)),
        ("a row that it has not", of(|_| [0, 0], 1)),
        ("a key of its own", of(|next| [next, 1], 1)),
        ("the first key", of(|_| [0, 1], 0)),
    ]);
}

#[test]
fn mistakes_in_what_is_left_out_are_told() {
    let of = |dropped| Form { dropped, ..RIGHT };
    are_told(&[
        ("at the default", of(is_default)),
        (
            "one key at the default",
            of(|channel, keys| keys.len() == 1 && is_default(channel, keys)),
        ),
        (
            "more keys at the default",
            of(|channel, keys| keys.len() > 1 && is_default(channel, keys)),
        ),
        (
            "the first key at the default",
            of(|channel, keys| is_default(channel, &keys[..1])),
        ),
        ("at 0", of(|_, keys| keys.iter().all(|key| key.value == 0))),
        (
            "a scale at 100",
            of(|channel, keys| (3..6).contains(&channel) && is_default(channel, keys)),
        ),
        (
            "a scale at 0",
            of(|channel, keys| (3..6).contains(&channel) && is_default(0, keys)),
        ),
        (
            "a rotate at 0, 0, 1",
            of(|channel, keys| (6..9).contains(&channel) && is_default(channel, keys)),
        ),
    ]);
}
