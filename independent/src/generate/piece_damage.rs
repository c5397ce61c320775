//! Damage token by token and number by number.

use super::number;
use super::piece::{Piece, PieceKind};
use super::rng::Rng;

/// Words of both formats, and some of neither.
const WORDS: [&str; 62] = [
    "Head",
    "bacVersion",
    "traVersion",
    "Figure",
    "name",
    "Textures",
    "i2",
    "Colors",
    "f3",
    "Materials",
    "material",
    "blendMode",
    "doubleFace",
    "transparent",
    "lighting",
    "textureIndex",
    "colorIndex",
    "specular",
    "alpha",
    "shininess",
    "Vertices",
    "coords",
    "pnt",
    "normals",
    "vct",
    "Bones",
    "bone",
    "hasChild",
    "hasBrother",
    "translate",
    "rotate",
    "handle",
    "vertexIndices",
    "TextureCoords",
    "f2",
    "Polygons",
    "face",
    "i3",
    "i4",
    "DynamicPolygons",
    "group",
    "totalFrame",
    "translate.x",
    "translate.z",
    "scale.y",
    "rotate.x",
    "roll",
    "kf",
    "kgf",
    "true",
    "false",
    "normal",
    "half",
    "6.0",
    "4.0",
    "0",
    "1",
    "-1",
    "head",
    "Name",
    "True",
    "I3",
];

/// A word, and one that is used alike.
const ALIKE: [(&str, &str); 14] = [
    ("i3", "i4"),
    ("i4", "i3"),
    ("pnt", "vct"),
    ("vct", "pnt"),
    ("alpha", "shininess"),
    ("textureIndex", "colorIndex"),
    ("hasChild", "hasBrother"),
    ("translate", "rotate"),
    ("translate.x", "translate.y"),
    ("roll", "rotate.z"),
    ("Colors", "Textures"),
    ("TextureCoords", "Textures"),
    ("face", "name"),
    ("kf", "kgf"),
];

/// Damages one token, or one chunk.
pub fn damage(rng: &mut Rng, pieces: &mut Vec<Piece>) {
    if pieces.is_empty() {
        return;
    }
    let at = rng.below(pieces.len());
    match rng.below(12) {
        0 => {
            pieces.remove(at);
        }
        1 => pieces.insert(at, pieces[at].clone()),
        2 => {
            let next = (at + 1) % pieces.len();
            pieces.swap(at, next);
        }
        3 => {
            let other = rng.below(pieces.len());
            pieces.swap(at, other);
        }
        4 => pieces[at] = any_piece(rng, pieces),
        5 => {
            let piece = any_piece(rng, pieces);
            pieces.insert(at, piece);
        }
        6 => replace_word(rng, pieces, at),
        7 => pieces.truncate(at),
        8 => {
            let piece = any_piece(rng, pieces);
            pieces.push(piece);
        }
        _ => damage_chunk(rng, pieces, at),
    }
}

/// A token of any kind, or one from elsewhere in the text.
fn any_piece(rng: &mut Rng, pieces: &[Piece]) -> Piece {
    match rng.below(7) {
        0 => Piece::new(PieceKind::Open, "("),
        1 => Piece::new(PieceKind::Close, ")"),
        2 => Piece::quoted(b"x"),
        3 => Piece::new(PieceKind::Word, *rng.pick(&WORDS)),
        4 => Piece::new(PieceKind::Int, "7"),
        5 => Piece::new(PieceKind::Float, "0.5"),
        _ => rng.pick(pieces).clone(),
    }
}

/// Replaces the next keyword by another word, often one of this text, often
/// one that is used alike.
fn replace_word(rng: &mut Rng, pieces: &mut [Piece], at: usize) {
    let is_word = |piece: &&mut Piece| piece.kind == PieceKind::Word;
    let words = pieces.iter().filter(|piece| piece.kind == PieceKind::Word);
    let words: Vec<Vec<u8>> = words.map(|piece| piece.bytes.clone()).collect();
    let Some(piece) = pieces[at..].iter_mut().find(is_word) else {
        return;
    };
    let alike = ALIKE.iter().find(|pair| pair.0.as_bytes() == piece.bytes);
    piece.bytes = match (alike, rng.below(3)) {
        (Some(pair), 0) => pair.1.into(),
        (_, 1) => rng.pick(&words).clone(),
        _ => rng.pick(&WORDS).as_bytes().to_vec(),
    };
}

/// The end of the chunk that opens at `open`: behind its `)`.
pub fn chunk_end(pieces: &[Piece], open: usize) -> usize {
    let mut depth = 0;
    for (index, piece) in pieces.iter().enumerate().skip(open) {
        match piece.kind {
            PieceKind::Open => depth += 1,
            PieceKind::Close => depth -= 1,
            _ => {}
        }
        if depth <= 0 {
            return index + 1;
        }
    }
    pieces.len()
}

/// Drops, doubles or moves the next chunk.
fn damage_chunk(rng: &mut Rng, pieces: &mut Vec<Piece>, at: usize) {
    let is_open = |piece: &Piece| piece.kind == PieceKind::Open;
    let opens: Vec<usize> = (0..pieces.len())
        .filter(|&at| is_open(&pieces[at]))
        .collect();
    let Some(&open) = opens.iter().find(|&&open| open >= at) else {
        return;
    };
    let end = chunk_end(pieces, open);
    let chunk: Vec<Piece> = pieces[open..end].to_vec();
    match rng.below(6) {
        0 | 1 => {
            pieces.drain(open..end);
        }
        2 => {
            pieces.splice(end..end, chunk);
        }
        // Swapped with the chunk behind it.
        3 if end < pieces.len() && is_open(&pieces[end]) => {
            let next_end = chunk_end(pieces, end);
            pieces[open..next_end].rotate_left(end - open);
        }
        // A copy before or behind any other chunk.
        4 => {
            let other = *rng.pick(&opens);
            let place = if rng.coin() {
                other
            } else {
                chunk_end(pieces, other)
            };
            pieces.splice(place..place, chunk);
        }
        _ => replace_word(rng, pieces, open),
    }
}

const BAD_INTS: [&str; 24] = [
    "2147483648",
    "-2147483649",
    "00000000000",
    "-00000000001",
    "12345678901",
    "9999999999",
    "99999999999999999999",
    "2147483647",
    "-2147483648",
    "0000000000",
    "1.0",
    "1.",
    ".5",
    "+1",
    "1e3",
    "--1",
    "-",
    "0x1",
    "1-",
    "1,0",
    "-+1",
    "true",
    "6.0",
    "-0",
];

const BAD_FLOATS: [&str; 24] = [
    "10000000",
    "-10000000",
    "00000000",
    "0.0000001",
    "1.0000000",
    "9999999.9999999",
    "10000000.0",
    "123456789012345678901234567890",
    "0.123456789012345678901234567890",
    "1.",
    ".5",
    "-.5",
    "+1",
    "1e3",
    "--1",
    "-",
    "1.2.3",
    "1..2",
    "1.-2",
    "1.5e0",
    "inf",
    "9999999.999999",
    "-9999999.999999",
    "-0000000.000000",
];

/// Damages one number, or moves it by one.
pub fn damage_number(rng: &mut Rng, pieces: &mut [Piece]) {
    let is_number = |piece: &&mut Piece| matches!(piece.kind, PieceKind::Int | PieceKind::Float);
    let mut numbers: Vec<&mut Piece> = pieces.iter_mut().filter(is_number).collect();
    if numbers.is_empty() {
        return;
    }
    let at = rng.below(numbers.len());
    let piece = &mut *numbers[at];
    if rng.once_in(4) {
        let spelled = String::from_utf8_lossy(&piece.bytes);
        if let Ok(value) = spelled.parse::<i64>() {
            let moved = value + rng.pick(&[-1, 1]);
            piece.bytes = moved.to_string().into_bytes();
            return;
        }
    }
    let bad = if piece.kind == PieceKind::Int {
        &BAD_INTS
    } else {
        &BAD_FLOATS
    };
    piece.bytes = rng.pick(bad).as_bytes().to_vec();
}

/// Exponents of other digits (6), of none and of another form (5).
const BAD_EXPONENTS: [&str; 18] = [
    "e7",
    "e-7",
    "e9",
    "e10",
    "e-12",
    "e00",
    "e-06",
    "e12345678901234567890",
    "e",
    "e-",
    "e+1",
    "e+0",
    "E1",
    "E-2",
    "e1.0",
    "e--1",
    "e1e1",
    "e1x",
];

/// Words that are refused for a value that is too great or no whole number of
/// millionths (6), for a digit or a count of digits (6), or for a part that is
/// missing or another (5). Where it is a digit, the value would qualify.
const EXPONENT_WORDS: [&str; 28] = [
    "9999999.999999e1",
    "-9999999e6",
    "1000000e1",
    "-1000000.0e1",
    "10e6",
    "-10.000001e6",
    "-9999999.999999e-1",
    "0.000001e-1",
    "0.1e-6",
    "-0.5e-6",
    "0e7",
    "-0.1e7",
    "10e-7",
    "0.01e8",
    "0e10",
    "1e00",
    "12345678e-1",
    "00000000e6",
    "0.1234567e1",
    "-0.0000000e-6",
    "12345678e",
    "0.1234567e-",
    "1.e3",
    "-.5e1",
    "e3",
    "-e-3",
    "1E0",
    "1e+0",
];

/// Gives a number an exponent, or another than it has. Of ten numbers eight
/// are decimals, one is an INT and one the version.
pub fn damage_exponent(rng: &mut Rng, pieces: &mut [Piece]) {
    let kind = match rng.below(10) {
        0 => PieceKind::Int,
        1 => PieceKind::Version,
        _ => PieceKind::Float,
    };
    let of_kind = |piece: &&mut Piece| piece.kind == kind;
    let mut numbers: Vec<&mut Piece> = pieces.iter_mut().filter(of_kind).collect();
    if numbers.is_empty() {
        return;
    }
    let at = rng.below(numbers.len());
    let bytes = &mut numbers[at].bytes;
    if kind == PieceKind::Float && rng.once_in(3) {
        *bytes = rng.pick(&EXPONENT_WORDS).as_bytes().to_vec();
        return;
    }
    // With one of the form the value may be too great, no whole number of
    // millionths, or just another.
    let exponent = if rng.coin() {
        rng.pick(&BAD_EXPONENTS).to_string()
    } else {
        number::any_exponent(rng)
    };
    let end = bytes.iter().position(|&byte| byte == b'e');
    bytes.truncate(end.unwrap_or(bytes.len()));
    bytes.extend(exponent.into_bytes());
}

const VERSIONS: [&str; 12] = [
    "6.00", "6", "6.", "06.0", "5.0", "7.0", "4.00", "-6.0", "6.0.", "six", "4", "+4.0",
];

/// Damages the version: another word, or another token.
pub fn damage_version(rng: &mut Rng, pieces: &mut Vec<Piece>) {
    let found = pieces
        .iter()
        .position(|piece| piece.kind == PieceKind::Version);
    let Some(at) = found else {
        return;
    };
    match rng.below(10) {
        0 => pieces[at] = Piece::quoted(b"6.0"),
        1 => {
            pieces.remove(at);
        }
        2 => pieces[at] = Piece::new(PieceKind::Open, "("),
        // The other format's version.
        3 => {
            let other = if pieces[at].bytes == b"6.0" {
                "4.0"
            } else {
                "6.0"
            };
            pieces[at].bytes = other.into();
        }
        _ => pieces[at].bytes = rng.pick(&VERSIONS).as_bytes().to_vec(),
    }
}

/// Damages a string: 255, 256 or more bytes, a bad byte inside, or no end.
pub fn damage_string(rng: &mut Rng, pieces: &mut Vec<Piece>) {
    let is_string = |piece: &Piece| piece.kind == PieceKind::Quoted;
    if !pieces.iter().any(is_string) {
        let at = rng.below(pieces.len() + 1);
        pieces.insert(at, Piece::quoted(b"name"));
    }
    let strings: Vec<usize> = (0..pieces.len())
        .filter(|&at| is_string(&pieces[at]))
        .collect();
    let bytes = &mut pieces[*rng.pick(&strings)].bytes;
    match rng.below(7) {
        0 => *bytes = [b"\"".as_slice(), &[b'a'; 255], b"\""].concat(),
        1 => *bytes = [b"\"".as_slice(), &[b'b'; 256], b"\""].concat(),
        2 => *bytes = [b"\"".as_slice(), &vec![b'c'; 257 + rng.below(50)], b"\""].concat(),
        // The 255th or 256th byte is a bad one.
        3 => {
            let length = 254 + rng.below(2);
            let bad = *rng.pick(&[0, 10, 127, 200]);
            *bytes = [b"\"".as_slice(), &vec![b'd'; length], &[bad], b"\""].concat();
        }
        4 | 5 => {
            let at = rng.below(bytes.len() + 1);
            bytes.insert(at, *rng.pick(&[0, 9, 10, 13, 31, 127, 128, 255]));
        }
        _ => {
            bytes.pop();
        }
    }
}
