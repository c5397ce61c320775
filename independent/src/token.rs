//! Lexing: refusals 1 to 4, and the tokens of a text.

use crate::limits;
use crate::refusal::Refusal;

#[derive(Clone, Copy, Debug, PartialEq, Eq)]
pub enum Kind {
    Open,
    Close,
    String,
    Word,
}

/// One token. `bytes` is the whole token, of a string only its content.
#[derive(Clone, Copy, Debug, PartialEq, Eq)]
pub struct Token<'a> {
    pub kind: Kind,
    pub offset: usize,
    pub bytes: &'a [u8],
}

/// Splits a text into tokens. `mark` is `;BAC` or `;TRA`.
pub fn lex<'a>(text: &'a [u8], mark: &[u8; 4]) -> Result<Vec<Token<'a>>, Refusal> {
    if text.len() > limits::TEXT_BYTES {
        return Err(Refusal::new(1, 0));
    }
    if !first_line_is_right(text, mark) {
        return Err(Refusal::new(2, 0));
    }
    let mut tokens = Vec::new();
    let mut at = 0;
    while at < text.len() {
        let byte = text[at];
        match byte {
            b'\t' | b'\n' | b'\r' | b' ' => at += 1,
            b';' => at = comment_end(text, at),
            b'(' | b')' => {
                let kind = if byte == b'(' {
                    Kind::Open
                } else {
                    Kind::Close
                };
                tokens.push(Token {
                    kind,
                    offset: at,
                    bytes: &text[at..at + 1],
                });
                at += 1;
            }
            b'"' => {
                let end = string_end(text, at)?;
                tokens.push(Token {
                    kind: Kind::String,
                    offset: at,
                    bytes: &text[at + 1..end],
                });
                at = end + 1;
            }
            _ if is_word_byte(byte) => {
                let end = word_end(text, at);
                tokens.push(Token {
                    kind: Kind::Word,
                    offset: at,
                    bytes: &text[at..end],
                });
                at = end;
            }
            _ => return Err(Refusal::new(3, at)),
        }
    }
    Ok(tokens)
}

fn first_line_is_right(text: &[u8], mark: &[u8; 4]) -> bool {
    text.starts_with(mark) && matches!(text.get(4), None | Some(b'\t' | b'\n' | b'\r' | b' '))
}

fn is_word_byte(byte: u8) -> bool {
    (33..=126).contains(&byte) && !matches!(byte, b'(' | b')' | b'"' | b';')
}

/// The offset of the line feed that ends a comment, or of the text's end.
fn comment_end(text: &[u8], start: usize) -> usize {
    let line_feed = text[start..].iter().position(|&byte| byte == b'\n');
    line_feed.map_or(text.len(), |length| start + length)
}

fn word_end(text: &[u8], start: usize) -> usize {
    let length = text[start..].iter().position(|&byte| !is_word_byte(byte));
    length.map_or(text.len(), |length| start + length)
}

/// The offset of the closing quote of the string whose quote is at `quote`.
fn string_end(text: &[u8], quote: usize) -> Result<usize, Refusal> {
    let content = &text[quote + 1..];
    for (index, &byte) in content.iter().enumerate() {
        if byte == b'"' {
            return Ok(quote + 1 + index);
        }
        if index == limits::STRING_BYTES {
            return Err(Refusal::new(4, quote));
        }
        if !(32..=126).contains(&byte) {
            return Err(Refusal::new(3, quote + 1 + index));
        }
    }
    Err(Refusal::new(4, quote))
}
