//! What the generated texts cover of numbers with exponents, and which
//! mistakes of a reader they tell.

use independent::generate::{text, Kind};
use independent::number::{float, int, Reading};
use independent::refusal::Refusal;
use independent::token::{self, Kind as TokenKind};
use std::collections::{BTreeMap, BTreeSet};
use std::ops::Range;
use std::sync::OnceLock;

/// The seeds and counts of tests/compare.sh.
const SOUND: (u64, u64) = (1, 1_000);
const DAMAGED: (u64, u64) = (2, 3_000);

/// The chunks with decimals, and which of their words these are.
const CHUNKS: [(&str, Range<usize>); 11] = [
    ("f3", 0..3),
    ("specular", 0..1),
    ("alpha", 0..1),
    ("shininess", 0..1),
    ("pnt", 0..3),
    ("vct", 0..3),
    ("translate", 0..3),
    ("rotate", 0..3),
    ("handle", 0..3),
    ("f2", 0..2),
    ("kf", 1..2),
];

/// A word, and the chunk it is a decimal of, if it stands at such a place.
struct Word {
    bytes: Vec<u8>,
    chunk: Option<&'static str>,
}

impl Word {
    /// The place of an `e` or `E`.
    fn letter(&self) -> Option<usize> {
        self.bytes.iter().position(|byte| b"eE".contains(byte))
    }

    /// The decimal up to that, and the rest.
    fn split(&self) -> Option<(&[u8], &[u8])> {
        let (decimal, exponent) = self.bytes.split_at(self.letter()?);
        (float(decimal) != Reading::Other).then_some((decimal, exponent))
    }
}

/// What a reader meets in a text: its plain words that are no keywords, up to
/// the one that is refused.
struct Met {
    words: Vec<Word>,
    refusal: Option<Refusal>,
    /// Whether it is the last of the words that is refused.
    at_last: bool,
}

impl Met {
    fn decimals(&self) -> impl Iterator<Item = &Word> {
        self.words.iter().filter(|word| word.chunk.is_some())
    }
}

fn met(kind: Kind, text: &[u8]) -> Met {
    let refusal = kind.subject().refusal(text);
    // 1 to 4 come before any word is read, 8 and above behind the last.
    let end = match refusal {
        Some(Refusal { number: 1..=4, .. }) => 0,
        Some(Refusal {
            number: 5..=7,
            place,
        }) => place as usize + 1,
        _ => text.len(),
    };
    let mut met = Met {
        words: Vec::new(),
        refusal,
        at_last: false,
    };
    let mark = text.first_chunk().unwrap_or(b";BAC");
    let tokens = token::lex(text, mark).unwrap_or_default();
    let mut chunk: Option<&(&str, Range<usize>)> = None;
    let mut index = 0;
    let mut before = TokenKind::Close;
    for token in tokens.iter().take_while(|token| token.offset < end) {
        met.at_last = false;
        match (before, token.kind) {
            (TokenKind::Open, TokenKind::Word) => {
                chunk = CHUNKS
                    .iter()
                    .find(|chunk| chunk.0.as_bytes() == token.bytes);
                index = 0;
            }
            (_, TokenKind::Word) => {
                let here = chunk.filter(|chunk| chunk.1.contains(&index));
                met.words.push(Word {
                    bytes: token.bytes.to_vec(),
                    chunk: here.map(|chunk| chunk.0),
                });
                met.at_last = token.offset + 1 == end;
                index += 1;
            }
            _ => chunk = None,
        }
        before = token.kind;
    }
    met
}

fn all_met(kind: Kind, (seed, count): (u64, u64)) -> Vec<Met> {
    (0..count)
        .map(|index| met(kind, &text(kind, seed, index)))
        .collect()
}

/// The texts that the two listings are compared on.
fn compared() -> &'static [Vec<Met>; 2] {
    static COMPARED: OnceLock<[Vec<Met>; 2]> = OnceLock::new();
    COMPARED.get_or_init(|| {
        let kinds = [
            (Kind::SoundFigures, Kind::DamagedFigures),
            (Kind::SoundMovements, Kind::DamagedMovements),
        ];
        kinds.map(|(sound, damaged)| {
            let mut texts = all_met(sound, SOUND);
            texts.extend(all_met(damaged, DAMAGED));
            texts
        })
    })
}

/// The sound figures and the sound movements among them.
fn sound() -> impl Iterator<Item = &'static [Met]> {
    compared().iter().map(|texts| &texts[..SOUND.1 as usize])
}

/// Every exponent stands at every place of a decimal.
#[test]
fn sound_texts_have_every_exponent_at_every_place() {
    let signed = |digit| ["e", "e-"].map(|before| format!("{before}{digit}").into_bytes());
    let expected: BTreeSet<Vec<u8>> = (0..=6).flat_map(signed).collect();
    let mut seen: BTreeMap<&str, BTreeSet<Vec<u8>>> = BTreeMap::new();
    for word in sound().flatten().flat_map(Met::decimals) {
        let exponents = seen.entry(word.chunk.unwrap()).or_default();
        exponents.extend(word.split().map(|(_, exponent)| exponent.to_vec()));
    }
    assert_eq!(seen.len(), CHUNKS.len());
    for (chunk, exponents) in seen {
        assert_eq!(exponents, expected, "{chunk}");
    }
}

/// Most sound texts have decimals with an exponent, and most have others. A
/// movement whose bones have few channels or none has few decimals or none.
#[test]
fn sound_texts_have_decimals_with_and_without_exponents() {
    for texts in sound() {
        let (mut with_some, mut with_others) = (0, 0);
        for text in texts {
            let with = text.decimals().filter_map(Word::split).count();
            with_some += usize::from(with > 0);
            with_others += usize::from(with < text.decimals().count());
        }
        assert!(with_some > 850, "{with_some}");
        assert!(with_others > 900, "{with_others}");
    }
}

/// Damaged texts are refused for exponents that are wrong or beyond, and for
/// exponents of INTs and versions.
#[test]
fn damaged_texts_are_refused_for_exponents() {
    for texts in compared() {
        let mut counts = [0; 4];
        let mut exponents = BTreeSet::new();
        for text in texts.iter().filter(|text| text.at_last) {
            let word = text.words.last().unwrap();
            let Some((decimal, exponent)) = word.split() else {
                continue;
            };
            let is_version = decimal == b"6.0" || decimal == b"4.0";
            match text.refusal.unwrap().number {
                5 if word.chunk.is_some() => counts[0] += 1,
                6 if word.chunk.is_some() => counts[1] += 1,
                5 if matches!(int(decimal), Reading::Value(_)) => counts[2] += 1,
                7 if is_version => counts[3] += 1,
                _ => {}
            }
            if word.chunk.is_some() {
                exponents.insert(exponent);
            }
        }
        assert!(counts[0] > 30 && counts[1] > 60, "{counts:?}");
        assert!(counts[2] > 10 && counts[3] > 10, "{counts:?}");
        for exponent in ["e7", "e10", "e00", "e", "e-", "e+1", "E1"] {
            assert!(exponents.contains(exponent.as_bytes()), "{exponent}");
        }
    }
}

/// A way to read a decimal, by arithmetic.
#[derive(Clone, Copy)]
struct Form {
    letters: &'static [char],
    signs: &'static [char],
    /// What an exponent of no digits is.
    no_digits: Reading,
    /// Whether the digits before the exponent are not too many.
    decimal: fn(&str, &str) -> bool,
    /// The exponent of a sign and digits, if it is one.
    exponent: fn(&str, &str) -> Option<i32>,
    /// The millionths of a number of units of 10^-14, if it qualifies.
    millionths: fn(i128) -> Option<i128>,
    /// What a value that does not qualify is.
    unfit: Reading,
}

const MOST: i128 = 9_999_999_999_999;
const PER_MILLIONTH: i128 = 100_000_000;

fn right_exponent(sign: &str, digits: &str) -> Option<i32> {
    let digit: i32 = digits.parse().ok()?;
    let sign = if sign == "-" { -1 } else { 1 };
    (digits.len() == 1 && digit <= 6).then_some(sign * digit)
}

fn whole_millionths(value: i128) -> Option<i128> {
    (value % PER_MILLIONTH == 0).then_some(value / PER_MILLIONTH)
}

const RIGHT: Form = Form {
    letters: &['e'],
    signs: &['-'],
    no_digits: Reading::Other,
    decimal: |whole, fraction| whole.len() <= 7 && fraction.len() <= 6,
    exponent: right_exponent,
    millionths: |value| whole_millionths(value).filter(|&value| value <= MOST),
    unfit: Reading::Beyond,
};

fn is_digits(word: &str) -> bool {
    !word.is_empty() && word.bytes().all(|byte| byte.is_ascii_digit())
}

impl Form {
    fn read(&self, word: &[u8]) -> Reading {
        let word = std::str::from_utf8(word).unwrap();
        let (sign, rest) = match word.strip_prefix('-') {
            Some(rest) => (-1, rest),
            None => (1, word),
        };
        let (decimal, exponent) = rest.split_once(self.letters).unwrap_or((rest, "0"));
        let (whole, fraction) = decimal.split_once('.').unwrap_or((decimal, "0"));
        let digits = exponent.strip_prefix(self.signs).unwrap_or(exponent);
        if !is_digits(whole) || !is_digits(fraction) {
            return Reading::Other;
        }
        if digits.is_empty() {
            return self.no_digits;
        }
        if !is_digits(digits) {
            return Reading::Other;
        }
        let exponent_sign = &exponent[..exponent.len() - digits.len()];
        let exponent = match (self.exponent)(exponent_sign, digits) {
            Some(exponent) if (self.decimal)(whole, fraction) => exponent,
            _ => return Reading::Beyond,
        };
        let number: i128 = format!("{whole}{fraction}").parse().unwrap();
        let power = 14 + exponent - fraction.len() as i32;
        match (self.millionths)(number * 10_i128.pow(power as u32)) {
            Some(millionths) => Reading::Value((sign * millionths) as i64),
            None => self.unfit,
        }
    }

    /// Whether a reader that takes this form for words with an `e` or `E` says
    /// something else of a text. Another value is seen only in a text that is
    /// taken.
    fn told_by(&self, text: &Met) -> bool {
        let mut words = text.decimals().filter(|word| word.letter().is_some());
        words.any(|word| {
            let values = |reading| matches!(reading, Reading::Value(_));
            let (right, found) = (float(&word.bytes), self.read(&word.bytes));
            let both_values = values(right) && values(found);
            right != found && (!both_values || text.refusal.is_none())
        })
    }
}

#[test]
fn the_right_form_is_the_readers() {
    for text in compared().iter().flatten() {
        for word in &text.words {
            assert_eq!(RIGHT.read(&word.bytes), float(&word.bytes));
        }
    }
}

/// Each listing is compared on texts that tell the mistake.
fn is_told(mistake: &str, form: Form) {
    for texts in compared() {
        assert!(texts.iter().any(|text| form.told_by(text)), "{mistake}");
    }
}

#[test]
fn mistakes_in_the_letter_and_the_sign_are_told() {
    let letters: [&[char]; 3] = [&[], &['E'], &['e', 'E']];
    for letters in letters {
        is_told("letter", Form { letters, ..RIGHT });
    }
    let signs: [&[char]; 2] = [&[], &['-', '+']];
    for signs in signs {
        is_told("sign", Form { signs, ..RIGHT });
    }
}

#[test]
fn mistakes_in_the_exponent_are_told() {
    type Exponent = fn(&str, &str) -> Option<i32>;
    let mistakes: [(&str, Exponent); 8] = [
        ("not used", |_, _| Some(0)),
        ("sign not used", |_, digits| right_exponent("", digits)),
        ("sign turned", |sign, digits| {
            right_exponent(sign, digits).map(|exponent| -exponent)
        }),
        ("-0 refused", |sign, digits| {
            right_exponent(sign, digits).filter(|_| (sign, digits) != ("-", "0"))
        }),
        ("6 refused", |sign, digits| {
            right_exponent(sign, digits).filter(|_| digits != "6")
        }),
        ("7 taken", |sign, digits| match (sign, digits) {
            ("", "7") => Some(7),
            ("-", "7") => Some(-7),
            _ => right_exponent(sign, digits),
        }),
        ("more digits taken", |sign, digits| {
            right_exponent(sign, &digits[digits.len() - 1..])
        }),
        ("zeros before taken", |sign, digits| {
            let zeros = digits.len() - 1;
            let last = digits.strip_prefix(&"0".repeat(zeros)).unwrap_or(digits);
            right_exponent(sign, last)
        }),
    ];
    for (mistake, exponent) in mistakes {
        is_told(mistake, Form { exponent, ..RIGHT });
    }
    for no_digits in [Reading::Beyond, Reading::Value(0)] {
        is_told("no digits", Form { no_digits, ..RIGHT });
    }
}

#[test]
fn mistakes_in_the_digits_before_an_exponent_are_told() {
    let one_more_before: fn(&str, &str) -> bool =
        |whole, fraction| whole.len() <= 8 && fraction.len() <= 6;
    let one_more_behind: fn(&str, &str) -> bool =
        |whole, fraction| whole.len() <= 7 && fraction.len() <= 7;
    for decimal in [one_more_before, one_more_behind] {
        is_told("digits", Form { decimal, ..RIGHT });
    }
}

#[test]
fn mistakes_in_the_value_are_told() {
    type Millionths = fn(i128) -> Option<i128>;
    let mistakes: [(&str, Millionths); 6] = [
        ("cut off", |value| {
            Some(value / PER_MILLIONTH).filter(|&value| value <= MOST)
        }),
        ("rounded", |value| {
            let half = PER_MILLIONTH / 2;
            Some((value + half) / PER_MILLIONTH).filter(|&value| value <= MOST)
        }),
        ("no bound", whole_millionths),
        ("bound one too high", |value| {
            whole_millionths(value).filter(|&value| value <= MOST + 1)
        }),
        ("bound one too low", |value| {
            whole_millionths(value).filter(|&value| value < MOST)
        }),
        ("bound without its fraction", |value| {
            whole_millionths(value).filter(|&value| value <= 9_999_999_000_000)
        }),
    ];
    for (mistake, millionths) in mistakes {
        is_told(
            mistake,
            Form {
                millionths,
                ..RIGHT
            },
        );
    }
    let unfit = Reading::Other;
    is_told("5 for 6", Form { unfit, ..RIGHT });
}
