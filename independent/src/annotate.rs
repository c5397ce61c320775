//! Blanks and comments put directly after words, and where the words go.

use crate::generate::rng::Rng;
use crate::limits;
use crate::token::{Kind, Token};

/// What is put directly after a word: blanks, or a comment with its line feed.
#[derive(Clone, Debug, PartialEq, Eq)]
pub struct Gap {
    /// The word's number, from 0.
    pub word: usize,
    pub bytes: Vec<u8>,
}

/// A text with gaps put in.
#[derive(Clone, Debug, PartialEq, Eq)]
pub struct Annotated {
    pub text: Vec<u8>,
    /// Of every word, and last of the text's end, the place before and after.
    pub places: Vec<(usize, usize)>,
    /// How many gaps have bytes.
    pub gaps: usize,
    /// Whether gaps brought it to the most bytes of a text.
    pub filled: bool,
}

impl Annotated {
    /// The new place of the word at a place, or of the text's end.
    pub fn place(&self, old: usize) -> Option<usize> {
        let found = self.places.binary_search_by_key(&old, |place| place.0);
        found.ok().map(|number| self.places[number].1)
    }
}

/// Where a word ends.
fn end(token: &Token) -> usize {
    let quotes = if token.kind == Kind::String { 2 } else { 0 };
    token.offset + token.bytes.len() + quotes
}

/// Puts each gap directly after its word, those of one word in their order.
pub fn put(text: &[u8], words: &[Token], gaps: &[Gap]) -> Annotated {
    let mut after: Vec<Vec<&Gap>> = vec![Vec::new(); words.len()];
    for gap in gaps {
        after[gap.word].push(gap);
    }
    let mut new = Vec::new();
    let mut places = Vec::new();
    let mut copied = 0;
    for (word, gaps) in words.iter().zip(after) {
        places.push((word.offset, word.offset + new.len() - copied));
        new.extend_from_slice(&text[copied..end(word)]);
        copied = end(word);
        for gap in gaps {
            new.extend_from_slice(&gap.bytes);
        }
    }
    new.extend_from_slice(&text[copied..]);
    places.push((text.len(), new.len()));
    Annotated {
        filled: new.len() == limits::TEXT_BYTES && text.len() < new.len(),
        text: new,
        places,
        gaps: gaps.iter().filter(|gap| !gap.bytes.is_empty()).count(),
    }
}

/// Puts gaps after some words, at most up to the most bytes of a text. A text
/// without words stays as it is.
pub fn annotate(rng: &mut Rng, text: &[u8], words: &[Token]) -> Annotated {
    let room = limits::TEXT_BYTES.saturating_sub(text.len());
    put(text, words, &any_gaps(rng, words.len(), room))
}

/// Gaps after some of so many words, of at most `room` bytes in all.
fn any_gaps(rng: &mut Rng, words: usize, mut room: usize) -> Vec<Gap> {
    let mut gaps = Vec::new();
    for word in any_words(rng, words) {
        let bytes = any_gap(rng);
        if bytes.len() <= room {
            room -= bytes.len();
            gaps.push(Gap { word, bytes });
        }
    }
    if words > 0 && rng.once_in(25) {
        let (word, bytes) = (rng.below(words), gap_of(rng, room));
        gaps.push(Gap { word, bytes });
    }
    gaps
}

/// One word or some of so many, the last and one of the first often, at times
/// one several times or every one.
fn any_words(rng: &mut Rng, words: usize) -> Vec<usize> {
    if words == 0 {
        return Vec::new();
    }
    let mut chosen = match rng.below(8) {
        0 => vec![rng.below(words)],
        1 => vec![rng.below(words); 2 + rng.below(4)],
        2 => (0..words).collect(),
        _ => (0..1 + rng.below(12)).map(|_| rng.below(words)).collect(),
    };
    if rng.once_in(3) {
        chosen.push(words - 1);
    }
    // Before the version, which is the fifth word.
    if rng.once_in(3) {
        chosen.push(rng.below(words.min(4)));
    }
    chosen
}

fn any_gap(rng: &mut Rng) -> Vec<u8> {
    if rng.coin() {
        let count = *rng.pick(&[0, 1, 1, 1, 2, 3, 4, 7, 20, 300]);
        blanks(rng, count)
    } else {
        let content = any_content(rng);
        comment(&content)
    }
}

/// A gap of so many bytes.
fn gap_of(rng: &mut Rng, length: usize) -> Vec<u8> {
    if length < 2 || rng.coin() {
        return blanks(rng, length);
    }
    let content: Vec<u8> = (0..length - 2).map(|_| content_byte(rng)).collect();
    comment(&content)
}

/// So many blanks, of one kind or of any.
fn blanks(rng: &mut Rng, count: usize) -> Vec<u8> {
    let one = *rng.pick(b"\t\n\r ");
    let alike = rng.coin();
    let kind = |_| if alike { one } else { *rng.pick(b"\t\n\r ") };
    (0..count).map(kind).collect()
}

fn comment(content: &[u8]) -> Vec<u8> {
    [b";", content, b"\n"].concat()
}

/// Contents of comments that are easy to get wrong.
const AWKWARD: [&[u8]; 16] = [
    b"",
    b"\"(",
    b";)",
    b"\"",
    b"(",
    b")",
    b")))) ",
    b"name \"",
    b" (Figure(name \"x\"",
    b"Polygons",
    b" 6.0 ",
    b"x",
    b"\r",
    b"\r\t\x0b\x0c\0\x1b",
    b"\x7f\x80\xfe\xff",
    b"\"(;\xff\"",
];

/// The content of a comment: awkward, of any bytes, or longer than a string.
fn any_content(rng: &mut Rng) -> Vec<u8> {
    let length = match rng.below(16) {
        0 => 250 + rng.below(20),
        1..6 => rng.below(24),
        _ => return rng.pick(&AWKWARD).to_vec(),
    };
    (0..length).map(|_| content_byte(rng)).collect()
}

/// Any byte but a line feed; quotes, brackets and `;` often.
fn content_byte(rng: &mut Rng) -> u8 {
    match rng.below(3) {
        0 => *rng.pick(b"\"();\r 0e"),
        _ => match rng.byte() {
            b'\n' => b'"',
            byte => byte,
        },
    }
}
