//! Rendering pieces as a text: first line, blanks and comments.

use super::piece::Piece;
use super::rng::Rng;

#[derive(Clone, Copy, Debug, PartialEq, Eq)]
pub enum Style {
    /// As short as can be.
    Compact,
    /// A chunk a line.
    Lines,
    /// Blanks of all four kinds and comments anywhere.
    Loose,
}

pub fn any_style(rng: &mut Rng) -> Style {
    match rng.below(4) {
        0 => Style::Compact,
        1 => Style::Lines,
        _ => Style::Loose,
    }
}

/// Renders a text. `mark` is `;BAC` or `;TRA`.
pub fn render(rng: &mut Rng, mark: &[u8], pieces: &[Piece], style: Style) -> Vec<u8> {
    let mut text = mark.to_vec();
    first_line_rest(rng, &mut text, style);
    for (index, piece) in pieces.iter().enumerate() {
        let before = index.checked_sub(1).map(|before| &pieces[before]);
        let tight = before.is_some_and(|before| before.is_word() && piece.is_word());
        gap(rng, &mut text, style, piece, tight);
        text.extend_from_slice(&piece.bytes);
    }
    match style {
        Style::Compact => {}
        Style::Lines => text.push(b'\n'),
        Style::Loose => {
            blanks(rng, &mut text, 0);
            if rng.coin() {
                comment(rng, &mut text);
            }
            if rng.coin() {
                text.push(b'\n');
            }
        }
    }
    text
}

fn first_line_rest(rng: &mut Rng, text: &mut Vec<u8>, style: Style) {
    if style == Style::Loose {
        match rng.below(4) {
            0 => text.push(b'\r'),
            1 => {
                text.push(*rng.pick(b"\t\r "));
                comment_bytes(rng, text);
            }
            _ => {}
        }
    }
    text.push(b'\n');
}

/// What stands before a piece. Where `tight`, something must part them.
fn gap(rng: &mut Rng, text: &mut Vec<u8>, style: Style, piece: &Piece, tight: bool) {
    match style {
        Style::Compact => {
            if tight {
                text.push(b' ');
            }
        }
        Style::Lines => {
            let opens = piece.bytes == b"(";
            text.push(if opens { b'\n' } else { b' ' });
        }
        Style::Loose => {
            if rng.once_in(24) {
                blanks(rng, text, 0);
                comment(rng, text);
                text.push(b'\n');
                blanks(rng, text, 0);
            } else {
                blanks(rng, text, usize::from(tight));
            }
        }
    }
}

fn blanks(rng: &mut Rng, text: &mut Vec<u8>, least: usize) {
    let more = *rng.pick(&[0, 0, 0, 1, 1, 2, 4]);
    for _ in 0..least + more {
        text.push(*rng.pick(b"\t\n\r  "));
    }
}

/// A comment without its line feed.
fn comment(rng: &mut Rng, text: &mut Vec<u8>) {
    text.push(b';');
    comment_bytes(rng, text);
}

/// Bytes of any value but a line feed; quotes, brackets and `;` often.
fn comment_bytes(rng: &mut Rng, text: &mut Vec<u8>) {
    for _ in 0..rng.below(24) {
        let byte = match rng.below(4) {
            0 => *rng.pick(b"\"();\r\0"),
            1 => 128 + rng.below(128) as u8,
            2 => 32 + rng.below(95) as u8,
            _ => rng.byte(),
        };
        if byte != b'\n' {
            text.push(byte);
        }
    }
}
