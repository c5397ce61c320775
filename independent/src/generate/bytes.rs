//! Damage byte by byte, to the first line, and to the length.

use super::rng::Rng;
use crate::limits;

/// Changes, adds or removes one byte, or cuts the text short.
pub fn damage(rng: &mut Rng, text: &mut Vec<u8>) {
    if text.is_empty() {
        return;
    }
    let at = rng.below(text.len());
    match rng.below(9) {
        0 | 1 => text[at] ^= 1 << rng.below(8),
        2 => text[at] = rng.byte(),
        3 => text.insert(at, rng.byte()),
        4 => text.insert(at, *rng.pick(b"()\"; 0ae.-\n\r\t")),
        5 => text.insert(at, *rng.pick(&[0, 8, 11, 12, 14, 31, 127, 128, 255])),
        6 => text.truncate(at),
        7 => {
            let end = (at + 1 + rng.below(4)).min(text.len());
            text.drain(at..end);
        }
        _ => {
            text.remove(at);
        }
    }
}

/// Leaves a string without an end at the end of the text.
pub fn unended_string(rng: &mut Rng, text: &mut Vec<u8>) {
    text.push(b'\n');
    text.push(b'"');
    let length = *rng.pick(&[0, 1, 20, 254, 255]);
    text.extend(std::iter::repeat_n(b'e', length));
}

/// Damages the first line.
pub fn first_line(rng: &mut Rng, text: &mut Vec<u8>) {
    match rng.below(10) {
        0 => text.insert(0, *rng.pick(b" \n;")),
        1 => text.insert(1, b' '),
        2 => text[1..4].make_ascii_lowercase(),
        3 => text.insert(4, *rng.pick(b"K;(\"\x0b\x0c\x00\xff")),
        4 => {
            let other: &[u8; 4] = if text.starts_with(b";BAC") {
                b";TRA"
            } else {
                b";BAC"
            };
            text[..4].copy_from_slice(other);
        }
        5 => text.truncate(rng.below(5)),
        // A right one still: a blank behind the mark.
        6 => text.insert(4, *rng.pick(b"\t\r ")),
        7 => {
            text.remove(rng.below(4));
        }
        8 => text[rng.below(4)] = rng.byte(),
        _ => text.truncate(5),
    }
}

/// Brings the text to about the most bytes, with blanks or a comment.
pub fn length(rng: &mut Rng, text: &mut Vec<u8>) {
    let most = limits::TEXT_BYTES;
    let wanted = *rng.pick(&[
        most - 1,
        most,
        most,
        most + 1,
        most + 1,
        most + 2,
        most + 300,
    ]);
    if rng.coin() {
        text.push(b'\n');
        text.push(b';');
    }
    let filler = *rng.pick(b" \n\t");
    if text.len() < wanted {
        text.resize(wanted, filler);
    }
}
