//! Pieces: the tokens of a text that is still to be rendered.

use super::number;
use super::rng::Rng;

#[derive(Clone, Copy, Debug, PartialEq, Eq)]
pub enum PieceKind {
    Open,
    Close,
    Word,
    Version,
    Int,
    Float,
    /// A string with its quotes.
    Quoted,
}

#[derive(Clone, Debug, PartialEq, Eq)]
pub struct Piece {
    pub kind: PieceKind,
    pub bytes: Vec<u8>,
}

impl Piece {
    pub fn new(kind: PieceKind, bytes: impl Into<Vec<u8>>) -> Piece {
        Piece {
            kind,
            bytes: bytes.into(),
        }
    }

    pub fn quoted(content: &[u8]) -> Piece {
        Piece::new(PieceKind::Quoted, [b"\"", content, b"\""].concat())
    }

    /// Whether two such pieces in a row need a blank between them.
    pub fn is_word(&self) -> bool {
        !matches!(
            self.kind,
            PieceKind::Open | PieceKind::Close | PieceKind::Quoted
        )
    }
}

/// Writes pieces one after another.
pub struct Writer<'a> {
    pub rng: &'a mut Rng,
    /// Whether numbers are spelled in varied ways and free orders shuffled.
    pub varied: bool,
    pub pieces: Vec<Piece>,
}

impl<'a> Writer<'a> {
    pub fn new(rng: &'a mut Rng, varied: bool) -> Writer<'a> {
        Writer {
            rng,
            varied,
            pieces: Vec::new(),
        }
    }

    fn put(&mut self, kind: PieceKind, bytes: impl Into<Vec<u8>>) {
        self.pieces.push(Piece::new(kind, bytes));
    }

    pub fn open(&mut self, keyword: &str) {
        self.put(PieceKind::Open, "(");
        self.put(PieceKind::Word, keyword);
    }

    pub fn close(&mut self) {
        self.put(PieceKind::Close, ")");
    }

    pub fn int(&mut self, value: i64) {
        let spelled = number::spell_int(self.rng, value, self.varied);
        self.put(PieceKind::Int, spelled);
    }

    pub fn float(&mut self, value: i64) {
        let spelled = number::spell_float(self.rng, value, self.varied);
        self.put(PieceKind::Float, spelled);
    }

    pub fn head(&mut self, keyword: &str, version: &str) {
        self.open("Head");
        self.open(keyword);
        self.put(PieceKind::Version, version);
        self.close();
        self.close();
    }

    pub fn int_chunk(&mut self, keyword: &str, values: &[i64]) {
        self.open(keyword);
        for &value in values {
            self.int(value);
        }
        self.close();
    }

    pub fn float_chunk(&mut self, keyword: &str, values: &[i64]) {
        self.open(keyword);
        for &value in values {
            self.float(value);
        }
        self.close();
    }

    pub fn word_chunk(&mut self, keyword: &str, word: &str) {
        self.open(keyword);
        self.put(PieceKind::Word, word);
        self.close();
    }

    pub fn flag(&mut self, flag: bool) {
        self.put(PieceKind::Word, if flag { "true" } else { "false" });
    }

    pub fn flag_chunk(&mut self, keyword: &str, flag: bool) {
        self.open(keyword);
        self.flag(flag);
        self.close();
    }

    /// A `name` chunk, or nothing for an absent name.
    pub fn name(&mut self, name: &Option<Vec<u8>>) {
        if let Some(name) = name {
            self.open("name");
            self.pieces.push(Piece::quoted(name));
            self.close();
        }
    }

    /// An order of `count` chunks: shuffled if varied.
    pub fn order(&mut self, count: usize) -> Vec<usize> {
        let mut order: Vec<usize> = (0..count).collect();
        if self.varied && self.rng.coin() {
            self.rng.shuffle(&mut order);
        }
        order
    }
}

/// An optional name of 0 to 255 bytes, at times with `;` and brackets.
pub fn any_name(rng: &mut Rng) -> Option<Vec<u8>> {
    if rng.once_in(3) {
        return None;
    }
    let length = match rng.below(12) {
        0 => 0,
        1 => 1,
        2 => 255,
        _ => rng.below(12),
    };
    Some(name_of(rng, length))
}

/// A name of so many bytes.
pub fn name_of(rng: &mut Rng, length: usize) -> Vec<u8> {
    (0..length).map(|_| string_byte(rng)).collect()
}

/// A byte that may stand in a string.
pub fn string_byte(rng: &mut Rng) -> u8 {
    match rng.below(6) {
        0 => *rng.pick(b"; ()"),
        1 => *rng.pick(&[32, 33, 35, 126]),
        _ => loop {
            let byte = 32 + rng.below(95) as u8;
            if byte != b'"' {
                break byte;
            }
        },
    }
}
