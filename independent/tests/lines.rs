//! Every line of "Both sides of each line", and the words of a text.

mod common;

use common::{changed, figure_refusal, refusal, up_to, FIGURE};
use independent::figure_rules::parents;
use independent::number::{float, int, Reading};
use independent::{figure, limits};

/// The figure with `(pnt 1.5 0 0)` spelled otherwise, and that word's place.
fn with_float(word: &str) -> (String, usize) {
    let place = up_to(FIGURE, "(pnt 1.5").len() - 3;
    (changed(FIGURE, "pnt 1.5", &format!("pnt {word}")), place)
}

/// The figure with one texture of this width, and that word's place.
fn with_int(word: &str) -> (String, usize) {
    let text = changed(
        FIGURE,
        "(Figure",
        &format!("(Figure(Textures(i2 {word} 1))"),
    );
    let place = up_to(&text, "(i2 ").len();
    (text, place)
}

#[test]
fn floats() {
    let (text, _) = with_float("9999999.999999");
    let figure = figure::read(text.as_bytes(), limits::FIGURE_ROOM).unwrap();
    assert_eq!(figure.points[1][0], 9_999_999_999_999);
    for word in ["10000000", "0.0000001", "00000001", "-0.0000000"] {
        let (text, place) = with_float(word);
        assert_eq!(figure_refusal(text), refusal(6, place), "{word}");
    }
    for word in [
        ".5", "1.", "-", "+1", "--1", "1.2.3", "-.5", "x", "\"1\"", "(",
    ] {
        let (text, place) = with_float(word);
        assert_eq!(figure_refusal(text), refusal(5, place), "{word}");
    }
    for (word, value) in [
        ("-9999999.999999", -9_999_999_999_999),
        ("-0", 0),
        ("-0.000000", 0),
        ("0000001.5", 1_500_000),
        ("-0.000001", -1),
        ("12.34", 12_340_000),
    ] {
        assert_eq!(float(word.as_bytes()), Reading::Value(value), "{word}");
    }
}

#[test]
fn ints() {
    let (text, _) = with_int("2147483647");
    let figure = figure::read(text.as_bytes(), limits::FIGURE_ROOM).unwrap();
    assert_eq!(figure.textures[0][0], 2_147_483_647);
    for word in [
        "2147483648",
        "-2147483649",
        "00000000000",
        "99999999999999999999",
    ] {
        let (text, place) = with_int(word);
        assert_eq!(figure_refusal(text), refusal(6, place), "{word}");
    }
    for word in ["1.0", "-", "+1", "1e3", "0x1", "1-", "true"] {
        let (text, place) = with_int(word);
        assert_eq!(figure_refusal(text), refusal(5, place), "{word}");
    }
    for (word, value) in [
        ("-2147483648", -2_147_483_648),
        ("-0", 0),
        ("0000000012", 12),
    ] {
        assert_eq!(int(word.as_bytes()), Reading::Value(value), "{word}");
    }
}

#[test]
fn version_and_empty_text() {
    let place = up_to(FIGURE, "(bacVersion ").len();
    let text = changed(FIGURE, "bacVersion 6.0", "bacVersion 6.00");
    assert_eq!(figure_refusal(text), refusal(7, place));
    assert_eq!(figure_refusal(""), refusal(2, 0));
}

/// Bones with these flags (child, brother).
fn bones(flags: &[&str]) -> Vec<figure::Bone> {
    let bone = |pair: &&str| figure::Bone {
        has_child: pair.starts_with('T'),
        has_brother: pair.ends_with('T'),
        ..figure::Bone::default()
    };
    flags.iter().map(bone).collect()
}

#[test]
fn bone_flags() {
    assert_eq!(parents(&bones(&["TF", "FT", "FF"])).unwrap(), [-1, 0, 0]);
    assert_eq!(parents(&bones(&["TT", "FF", "FF"])).unwrap(), [-1, 0, -1]);
    assert_eq!(parents(&bones(&["TF"])).err(), refusal(10, 1));
    assert_eq!(parents(&bones(&["FF", "FF"])).err(), refusal(10, 1));
    // A child's child comes before its brother, and that before an aunt.
    let deep = ["TT", "TT", "FF", "FF", "FF"];
    assert_eq!(parents(&bones(&deep)).unwrap(), [-1, 0, 1, 0, -1]);
    assert_eq!(parents(&bones(&["TT", "FF"])).err(), refusal(10, 2));
}

#[test]
fn specular() {
    let one = changed(FIGURE, "specular 0.25", "specular 1");
    assert_eq!(figure_refusal(one), None);
    let more = changed(FIGURE, "specular 0.25", "specular 1.000001");
    assert_eq!(figure_refusal(more), refusal(12, 0));
}

#[test]
fn string_lengths() {
    for (length, wanted) in [(0, false), (1, false), (255, false), (256, true)] {
        let name = format!("(Figure(name \"{}\")", "x".repeat(length));
        let text = changed(FIGURE, "(Figure", &name);
        let quote = text.find('"').unwrap();
        let expected = if wanted { refusal(4, quote) } else { None };
        assert_eq!(figure_refusal(text), expected, "{length}");
    }
}

/// `;` and brackets in a string are content; any byte may stand in a comment.
#[test]
fn strings_and_comments() {
    let text = changed(FIGURE, "(Figure", "(Figure(name\"a;( ~)\")");
    let figure = figure::read(text.as_bytes(), limits::FIGURE_ROOM).unwrap();
    let name = figure.name.unwrap();
    assert_eq!(&text[name.offset..name.offset + name.length], "a;( ~)");
    let mut text = FIGURE.as_bytes().to_vec();
    text.extend(b";\"( \x00\x80\xff\r");
    assert_eq!(figure_refusal(&text), None);
    let loud = changed(FIGURE, ";BAC", ";BAC\t\u{ff}\"(");
    assert_eq!(figure_refusal(loud), None);
}

/// The mark may end with the text; then the whole shape is missing.
#[test]
fn first_lines() {
    for text in [";BAC", ";BAC ", ";BAC\t", ";BAC\r", ";BAC\n", ";BAC (Head"] {
        assert_eq!(figure_refusal(text), refusal(5, text.len()), "{text:?}");
    }
    for text in [
        ";BA", ";BACK", "; BAC", " ;BAC", ";bac", ";TRA", ";BAC(", ";BAC;",
    ] {
        assert_eq!(figure_refusal(text), refusal(2, 0), "{text:?}");
    }
}
