//! A cursor over the tokens: refusals 5, 6 and 7, at the first token that
//! offends.
//!
//! Whatever reads a chunk starts after its keyword and ends after its `)`.

use crate::number::{self, Reading};
use crate::refusal::Refusal;
use crate::token::{Kind, Token};

/// Place and length of a name's content.
#[derive(Clone, Copy, Debug, PartialEq, Eq)]
pub struct Name {
    pub offset: usize,
    pub length: usize,
}

/// One chunk of a free order: its keyword, and whether it must stand.
pub type FreeChunk = (&'static str, bool);

pub struct Cursor<'a> {
    tokens: &'a [Token<'a>],
    next: usize,
    text_length: usize,
}

impl<'a> Cursor<'a> {
    pub fn new(tokens: &'a [Token<'a>], text_length: usize) -> Cursor<'a> {
        Cursor {
            tokens,
            next: 0,
            text_length,
        }
    }

    fn peek(&self) -> Option<&'a Token<'a>> {
        self.tokens.get(self.next)
    }

    /// The bytes of the token some steps ahead, if it is a plain word.
    fn word_ahead(&self, steps: usize) -> Option<&'a [u8]> {
        let token = self.tokens.get(self.next + steps)?;
        (token.kind == Kind::Word).then_some(token.bytes)
    }

    /// Refuses the next token, or the text's end where there is none.
    fn refuse<T>(&self, number: u8) -> Result<T, Refusal> {
        let place = self.peek().map_or(self.text_length, |token| token.offset);
        Err(Refusal::new(number, place))
    }

    pub fn at_open(&self) -> bool {
        self.peek().is_some_and(|token| token.kind == Kind::Open)
    }

    /// Whether the next two tokens are `(` and this keyword.
    pub fn at_chunk(&self, keyword: &str) -> bool {
        self.at_open() && self.word_ahead(1) == Some(keyword.as_bytes())
    }

    fn take(&mut self, kind: Kind) -> Result<(), Refusal> {
        match self.peek() {
            Some(token) if token.kind == kind => {
                self.next += 1;
                Ok(())
            }
            _ => self.refuse(5),
        }
    }

    pub fn close(&mut self) -> Result<(), Refusal> {
        self.take(Kind::Close)
    }

    /// Takes a word that is one of these; answers which.
    pub fn one_of(&mut self, words: &[&str]) -> Result<usize, Refusal> {
        let found = self
            .word_ahead(0)
            .and_then(|bytes| words.iter().position(|word| word.as_bytes() == bytes));
        match found {
            Some(index) => {
                self.next += 1;
                Ok(index)
            }
            None => self.refuse(5),
        }
    }

    /// Takes `(` and the keyword.
    pub fn open_chunk(&mut self, keyword: &str) -> Result<(), Refusal> {
        self.take(Kind::Open)?;
        self.one_of(&[keyword])?;
        Ok(())
    }

    /// Takes `(` and the keyword if both are next.
    pub fn open_optional(&mut self, keyword: &str) -> bool {
        let here = self.at_chunk(keyword);
        if here {
            self.next += 2;
        }
        here
    }

    fn number(&mut self, form: fn(&[u8]) -> Reading) -> Result<i64, Refusal> {
        match self.word_ahead(0).map(form) {
            Some(Reading::Value(value)) => {
                self.next += 1;
                Ok(value)
            }
            Some(Reading::Beyond) => self.refuse(6),
            Some(Reading::Other) | None => self.refuse(5),
        }
    }

    pub fn int(&mut self) -> Result<i64, Refusal> {
        self.number(number::int)
    }

    pub fn float(&mut self) -> Result<i64, Refusal> {
        self.number(number::float)
    }

    pub fn flag(&mut self) -> Result<bool, Refusal> {
        Ok(self.one_of(&["false", "true"])? == 1)
    }

    /// The rest of a chunk of so many INTs.
    pub fn ints<const N: usize>(&mut self) -> Result<[i64; N], Refusal> {
        let mut row = [0; N];
        for place in &mut row {
            *place = self.int()?;
        }
        self.close()?;
        Ok(row)
    }

    /// The rest of a chunk of so many FLOATs.
    pub fn floats<const N: usize>(&mut self) -> Result<[i64; N], Refusal> {
        let mut row = [0; N];
        for place in &mut row {
            *place = self.float()?;
        }
        self.close()?;
        Ok(row)
    }

    /// The rest of a chunk of any number of INTs.
    pub fn ints_to_close(&mut self) -> Result<Vec<i64>, Refusal> {
        let mut row = Vec::new();
        while self.peek().is_some_and(|token| token.kind == Kind::Word) {
            row.push(self.int()?);
        }
        self.close()?;
        Ok(row)
    }

    /// The rest of a chunk of one flag.
    pub fn flag_chunk(&mut self) -> Result<bool, Refusal> {
        let flag = self.flag()?;
        self.close()?;
        Ok(flag)
    }

    /// The rest of a `name` chunk.
    pub fn name_chunk(&mut self) -> Result<Name, Refusal> {
        let token = match self.peek() {
            Some(token) if token.kind == Kind::String => token,
            _ => return self.refuse(5),
        };
        self.next += 1;
        self.close()?;
        Ok(Name {
            offset: token.offset + 1,
            length: token.bytes.len(),
        })
    }

    /// A `name` chunk if one is next.
    pub fn optional_name(&mut self) -> Result<Option<Name>, Refusal> {
        if self.open_optional("name") {
            return self.name_chunk().map(Some);
        }
        Ok(None)
    }

    /// The whole `Head` chunk.
    pub fn head(&mut self, keyword: &str, version: &str) -> Result<(), Refusal> {
        self.open_chunk("Head")?;
        self.open_chunk(keyword)?;
        match self.word_ahead(0) {
            Some(word) if word == version.as_bytes() => self.next += 1,
            Some(_) => return self.refuse(7),
            None => return self.refuse(5),
        }
        self.close()?;
        self.close()
    }

    /// The rest of a list of chunks with the same keyword, at least `least`.
    pub fn rows<T>(
        &mut self,
        keyword: &str,
        least: usize,
        mut row: impl FnMut(&mut Self) -> Result<T, Refusal>,
    ) -> Result<Vec<T>, Refusal> {
        let mut list = Vec::new();
        while list.len() < least || self.at_open() {
            self.open_chunk(keyword)?;
            list.push(row(self)?);
        }
        self.close()?;
        Ok(list)
    }

    /// The rest of a chunk whose chunks stand in any order, each at most
    /// once. `read` is told which of `chunks` it is to read.
    pub fn free_order(
        &mut self,
        chunks: &[FreeChunk],
        mut read: impl FnMut(&mut Self, usize) -> Result<(), Refusal>,
    ) -> Result<(), Refusal> {
        let mut stands = vec![false; chunks.len()];
        while self.at_open() && stands.contains(&false) {
            self.take(Kind::Open)?;
            let word = self.word_ahead(0);
            let open_still = (0..chunks.len())
                .find(|&index| !stands[index] && word == Some(chunks[index].0.as_bytes()));
            let Some(index) = open_still else {
                return self.refuse(5);
            };
            self.next += 1;
            stands[index] = true;
            read(self, index)?;
        }
        let missing = (0..chunks.len()).any(|index| chunks[index].1 && !stands[index]);
        if missing {
            return self.refuse(5);
        }
        self.close()
    }

    /// No token may be left.
    pub fn end(&self) -> Result<(), Refusal> {
        if self.peek().is_some() {
            return self.refuse(5);
        }
        Ok(())
    }
}
