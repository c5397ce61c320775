//! Numbers with exponents: which words are taken, which are 5 and which 6,
//! and at which places.

mod common;

use common::{changed, figure_refusal, figure_stops, movement_refusal, movement_stops};
use common::{refusal, up_to, FIGURE, MOVEMENT};
use independent::number::{float, int, Reading};
use independent::{figure, limits, movement};

const MOST: i64 = 9_999_999_999_999;

/// Words that are taken, and their millionths.
const TAKEN: [(&str, i64); 29] = [
    ("1.5e-3", 1_500),
    ("1e3", 1_000_000_000),
    ("1e6", 1_000_000_000_000),
    ("10e-6", 10),
    ("1.25e2", 125_000_000),
    ("1.5e0", 1_500_000),
    ("1.5e-0", 1_500_000),
    ("0000001.500000e1", 15_000_000),
    ("12.34e-1", 1_234_000),
    ("0.000001e6", 1_000_000),
    // The greatest values.
    ("9999999.999999", MOST),
    ("9999999.999999e0", MOST),
    ("9999999.999999e-0", MOST),
    ("999999.999999e1", 9_999_999_999_990),
    ("9999.999999e3", 9_999_999_999_000),
    ("9.999999e6", 9_999_999_000_000),
    ("0.999999e6", 999_999_000_000),
    ("9999999e-6", 9_999_999),
    ("9999999.9e-1", 999_999_990_000),
    // The least, and digits that are lost only because they are zeros.
    ("0.000001e0", 1),
    ("1e-6", 1),
    ("0.00001e-1", 1),
    ("0.000010e-1", 1),
    ("1.0e-6", 1),
    ("1.000000e-6", 1),
    ("1000000e-6", 1_000_000),
    ("1234560e-6", 1_234_560),
    ("0000000.000000e-6", 0),
    ("0000000e6", 0),
];

/// Words of the form that are refused with 6.
const BEYOND: [&str; 33] = [
    // Other digits in the exponent.
    "1e7",
    "1e-7",
    "1e8",
    "1e9",
    "1e10",
    "1e-12",
    "1e00",
    "1e-00",
    "1e03",
    "0e7",
    "0e00",
    "1e99999999999999999999",
    // Too many digits before it, whatever the value.
    "12345678e1",
    "12345678e-1",
    "00000001e0",
    "00000000e-6",
    "0.1234567e1",
    "0.0000000e6",
    "999999.9999999e1",
    "12345678e7",
    "0.1234567e00",
    // A value that is too great.
    "9999999e1",
    "1000000e1",
    "10e6",
    "9999999.999999e1",
    "9999999e6",
    "1000.000000e4",
    // A value that is no whole number of millionths.
    "0.000001e-1",
    "0.1e-6",
    "1.5e-6",
    "9999999.999999e-1",
    "0.000001e-6",
    "123.456789e-3",
];

/// Words of another form, which are refused with 5.
const OTHER: [&str; 29] = [
    "1e",
    "1e-",
    "1e+3",
    "1E3",
    "1.e3",
    ".5e1",
    "e3",
    "1e3x",
    "1e3e3",
    "12345678e",
    "e",
    "e-1",
    "1.5e",
    "1.5e-",
    "0.1234567e-",
    "1e--3",
    "1e-+3",
    "1e3-",
    "1e3.",
    "1e3.0",
    "1e.3",
    "1.5.e3",
    "1.2.3e1",
    "1ee3",
    "1.5E-3",
    "+1e3",
    "1e7x",
    "12345678e+1",
    "0x1e3",
];

fn with_minus(word: &str) -> String {
    format!("-{word}")
}

fn read(word: &str) -> Reading {
    float(word.as_bytes())
}

#[test]
fn words_that_are_taken() {
    for (word, value) in TAKEN {
        assert_eq!(read(word), Reading::Value(value), "{word}");
        assert_eq!(read(&with_minus(word)), Reading::Value(-value), "-{word}");
    }
}

#[test]
fn words_beyond_the_form() {
    for word in BEYOND {
        assert_eq!(read(word), Reading::Beyond, "{word}");
        assert_eq!(read(&with_minus(word)), Reading::Beyond, "-{word}");
    }
}

#[test]
fn words_of_another_form() {
    for word in OTHER {
        assert_eq!(read(word), Reading::Other, "{word}");
        assert_eq!(read(&with_minus(word)), Reading::Other, "-{word}");
    }
    assert_eq!(read("--1e3"), Reading::Other);
}

/// Zero is taken with every exponent, and has no sign.
#[test]
fn zero_with_every_exponent() {
    for digit in 0..=6 {
        for zero in ["0", "-0", "0.0", "-0.000000", "0000000"] {
            for sign in ["", "-"] {
                let word = format!("{zero}e{sign}{digit}");
                assert_eq!(read(&word), Reading::Value(0), "{word}");
            }
        }
    }
}

/// The same by arithmetic: the millionths of the digits before the exponent,
/// times or divided by a power of ten.
#[test]
fn every_exponent_on_many_decimals() {
    let wholes = [
        "0", "1", "9", "10", "99", "100", "0050", "1000000", "1234567", "0999999", "9999999",
    ];
    let fractions = [
        "", "0", "5", "05", "000001", "000010", "01000", "100000", "123456", "999999", "999900",
    ];
    let mut counts = [0; 2];
    for whole in wholes {
        for fraction in fractions {
            let point = if fraction.is_empty() { "" } else { "." };
            let before: i128 = format!("{whole}{fraction:0<6}").parse().unwrap();
            for exponent in -6..=6 {
                let word = format!("{whole}{point}{fraction}e{exponent}");
                let scaled = before * 10_i128.pow((6 + exponent) as u32);
                let (value, rest) = (scaled / 1_000_000, scaled % 1_000_000);
                let taken = rest == 0 && value <= i128::from(MOST);
                let expected = if taken {
                    Reading::Value(value as i64)
                } else {
                    Reading::Beyond
                };
                assert_eq!(read(&word), expected, "{word}");
                counts[usize::from(taken)] += 1;
            }
        }
    }
    assert!(counts.iter().all(|&count| count > 500), "{counts:?}");
}

/// A figure with `@` at each place of a decimal.
const FIGURE_PLACES: &str = ";BAC
(Head(bacVersion 6.0))(Figure(Colors(f3 @ @ @))(Materials(material
(blendMode normal)(doubleFace false)(transparent false)(lighting true)
(textureIndex -1)(colorIndex -1)(specular @)(alpha @)(shininess @)))
(Vertices(coords(pnt @ @ @))(normals(vct @ @ @)))
(Bones(bone(hasChild false)(hasBrother false)
(translate @ @ @)(rotate @ @ @)(handle @ @ @)))
(TextureCoords(f2 @ @))(Polygons))
";

/// A movement with `@` at each place of a decimal.
const MOVEMENT_PLACES: &str = ";TRA
(Head(traVersion 4.0))(Figure(totalFrame 2)(bone
(translate.x(kf 0 @)(kf 1 @))(translate.y(kf 0 @))(translate.z(kf 0 @))
(scale.x(kf 0 @))(scale.y(kf 0 @))(scale.z(kf 0 @))
(rotate.x(kf 0 @))(rotate.y(kf 0 @))(rotate.z(kf 0 @))
(roll(kf 0 @)(kf 1 @))))
";

/// The texts with this word at one place and `0` at the others, and the
/// word's place in each.
fn at_each_place(places: &str, word: &str) -> Vec<(String, usize)> {
    let parts: Vec<&str> = places.split('@').collect();
    let text = |at: usize| {
        let before = parts[..at].join("0");
        let after = parts[at..].join("0");
        (format!("{before}{word}{after}"), before.len())
    };
    (1..parts.len()).map(text).collect()
}

/// The decimals of a figure with one row in each list, in the text's order.
fn figure_decimals(text: &str) -> Vec<i64> {
    let figure = figure::read(text.as_bytes(), limits::FIGURE_ROOM).unwrap();
    let bone = &figure.bones[0];
    [
        &figure.colours[0][..],
        &figure.materials[0].levels,
        &figure.points[0],
        &figure.normals[0],
        &bone.translate,
        &bone.rotate,
        &bone.handle,
        &figure.uvs[0],
    ]
    .concat()
}

/// The values of a movement's keys, in the text's order.
fn movement_decimals(text: &str) -> Vec<i64> {
    let movement = movement::read(text.as_bytes(), limits::MOVEMENT_ROOM).unwrap();
    let keys = movement.channels().flatten();
    keys.map(|key| key.value).collect()
}

#[test]
fn every_place_of_a_decimal_takes_exponents() {
    let cases = [
        (FIGURE_PLACES, figure_decimals as fn(&str) -> Vec<i64>, 23),
        (MOVEMENT_PLACES, movement_decimals, 12),
    ];
    for (places, decimals, count) in cases {
        // A level too may be a quarter.
        for word in ["25e-2", "0.025e1", "250000e-6", "0000000.250000e-0"] {
            let texts = at_each_place(places, word);
            assert_eq!(texts.len(), count);
            for (at, (text, _)) in texts.iter().enumerate() {
                let mut expected = vec![0; count];
                expected[at] = 250_000;
                assert_eq!(decimals(text), expected, "{text}");
            }
        }
    }
}

#[test]
fn every_place_of_a_decimal_refuses_other_exponents() {
    let refused = BEYOND.map(|word| (word, 6)).into_iter();
    for (word, number) in refused.chain(OTHER.map(|word| (word, 5))) {
        for (text, place) in at_each_place(FIGURE_PLACES, word) {
            assert_eq!(figure_refusal(&text), refusal(number, place), "{text}");
        }
        for (text, place) in at_each_place(MOVEMENT_PLACES, word) {
            assert_eq!(movement_refusal(&text), refusal(number, place), "{text}");
        }
    }
}

/// A level is bounded by its value, not by its digits.
#[test]
fn levels_with_exponents() {
    for (word, expected) in [
        ("0.000001e6", None),
        ("1000000e-6", None),
        ("-0e3", None),
        ("1e1", refusal(12, 0)),
        ("0.000002e6", refusal(12, 0)),
        ("1000001e-6", refusal(12, 0)),
        ("-1e-6", refusal(12, 0)),
    ] {
        for chunk in ["(specular", "(specular 0)(alpha", "(specular 0)(shininess"] {
            let text = changed(FIGURE, "(specular 0.25)", &format!("{chunk} {word})"));
            assert_eq!(figure_refusal(&text), expected, "{text}");
        }
    }
}

/// No INT has an exponent; not even one of a whole value.
#[test]
fn ints_stay_as_they_were() {
    for word in ["1e3", "1e0", "0e0", "-1e0", "1e-0", "1e7", "1e", "1.5e-3"] {
        assert_eq!(int(word.as_bytes()), Reading::Other, "{word}");
    }
    for before in ["(textureIndex ", "(colorIndex ", "(face ", "(i3 0 1 "] {
        figure_stops(&up_to(FIGURE, before), "0e0)", 5);
    }
    figure_stops(&up_to(FIGURE, "(vertexIndices 0 "), "1e0)", 5);
    figure_stops(&(up_to(FIGURE, "(Figure") + "(Textures(i2 "), "1e0 1))", 5);
    figure_stops(&(up_to(FIGURE, "(Figure") + "(Textures(i2 1 "), "1e7))", 5);
    for before in ["(totalFrame ", "(kf 3 46.406628)(kf ", "(kgf 4 "] {
        movement_stops(&up_to(MOVEMENT, before), "6e0 1)", 5);
    }
    movement_stops(&(up_to(MOVEMENT, "(DynamicPolygons") + "(kgf "), "0e0", 5);
}

#[test]
fn versions_stay_as_they_were() {
    for word in ["6.0e0", "6e0", "60e-1", "0.6e1", "6.0e", "6.0e7"] {
        figure_stops(";BAC\n(Head(bacVersion ", &format!("{word}))"), 7);
    }
    for word in ["4.0e0", "4.0e-0", "40e-1", "4.0E0"] {
        movement_stops(";TRA\n(Head(traVersion ", &format!("{word}))"), 7);
    }
}
