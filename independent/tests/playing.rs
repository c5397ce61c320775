//! Sample, Shown, Corner and Label.

mod common;

use common::{changed, grouped, movement_of_lines, FIGURE, MOVEMENT};
use independent::figure::{self, Figure};
use independent::movement::{self, Movement};
use independent::play::{corner, label, sample, shown, Corner, Fraction};

fn figure(text: &str) -> Figure {
    figure::read(text.as_bytes(), 8_192).unwrap()
}

fn movement(text: &str) -> Movement {
    movement::read(text.as_bytes(), 11_779).unwrap()
}

/// The movement whose `roll` has these keys.
fn with_roll(keys: &str) -> Movement {
    movement(&changed(
        MOVEMENT,
        "(kf 0 0)(kf 3 46.406628)(kf 6 132.590363)",
        keys,
    ))
}

fn fraction(numerator: i64, denominator: i64) -> Option<Fraction> {
    Some(Fraction {
        numerator,
        denominator,
    })
}

#[test]
fn the_three_worked_samples() {
    let falling = with_roll("(kf 0 0)(kf 3 -0.000001)");
    assert_eq!(sample(&falling, 0, 9, 1), fraction(-1, 3));
    let rising = with_roll("(kf 0 0)(kf 3 46.406628)(kf 6 132.590363)");
    assert_eq!(sample(&rising, 0, 9, 4), fraction(225_403_619, 3));
    let whole = with_roll("(kf 0 0)(kf 8 0.275800)(kf 10 0.724176)");
    assert_eq!(sample(&whole, 0, 9, 9), fraction(499_988, 1));
}

#[test]
fn samples_on_between_and_after_keys() {
    let roll = with_roll("(kf 0 1)(kf 4 -1)(kf 6 0.5)");
    let expected = [
        (0, 1_000_000, 1),
        (1, 500_000, 1),
        (2, 0, 1),
        (3, -500_000, 1),
        (4, -1_000_000, 1),
        (5, -250_000, 1),
        (6, 500_000, 1),
        (10, 500_000, 1),
    ];
    for (frame, numerator, denominator) in expected {
        assert_eq!(
            sample(&roll, 0, 9, frame),
            fraction(numerator, denominator),
            "{frame}"
        );
    }
    assert_eq!(sample(&roll, 0, 5, 10), fraction(100_000_000, 1));
}

/// The widest values over the most frames.
#[test]
fn the_widest_sample() {
    let text = changed(MOVEMENT, "totalFrame 11", "totalFrame 32767");
    let keys = "(kf 0 -9999999.999999)(kf 32766 9999999.999999)";
    let text = changed(&text, "(kf 0 0)(kf 3 46.406628)(kf 6 132.590363)", keys);
    let wide = movement(&text);
    let most = 9_999_999_999_999_i128;
    for frame in [1_i64, 2, 3, 16_383, 16_384, 32_765] {
        let found = sample(&wide, 0, 9, frame).unwrap();
        let (numerator, denominator) = (i128::from(found.numerator), i128::from(found.denominator));
        let exact = -most * 32_766 + 2 * most * i128::from(frame);
        assert_eq!(numerator * 32_766, exact * denominator, "{frame}");
    }
    assert_eq!(sample(&wide, 0, 9, 16_383), fraction(0, 1));
}

#[test]
fn no_such_sample() {
    let movement = movement(MOVEMENT);
    assert!(sample(&movement, 0, 0, 10).is_some());
    for (bone, channel, frame) in [
        (1, 0, 0),
        (-1, 0, 0),
        (0, 10, 0),
        (0, -1, 0),
        (0, 0, 11),
        (0, 0, -1),
    ] {
        assert_eq!(sample(&movement, bone, channel, frame), None);
    }
}

/// The same lines in three orders; the two of equal frames stay in theirs.
#[test]
fn shown_follows_the_lines_of_its_group_in_any_order() {
    let figure = figure(&grouped());
    for lines in [
        "0 1 true, 2 0 true, 2 0 false, 3 0 true, 5 1 false, 5 0 true",
        "3 0 true, 2 0 true, 5 0 true, 5 1 false, 0 1 true, 2 0 false",
        "5 0 true, 5 1 false, 3 0 true, 2 0 true, 2 0 false, 0 1 true",
    ] {
        let movement = movement(&movement_of_lines(7, lines));
        let over = |face: i64| -> Vec<bool> {
            (0..7)
                .map(|frame| shown(&figure, &movement, face, frame).unwrap())
                .collect()
        };
        assert_eq!(over(0), [true; 7]);
        assert_eq!(over(1), [false, false, false, true, true, true, true]);
        assert_eq!(over(2), [true, true, true, true, true, false, false]);
        assert_eq!(over(3), [false; 7]);
        for (face, frame) in [(4, 0), (-1, 0), (0, 7), (0, -1), (3, 7)] {
            assert_eq!(shown(&figure, &movement, face, frame), None);
        }
    }
}

#[test]
fn the_papers_face_is_never_shown() {
    let (figure, movement) = (figure(FIGURE), movement(MOVEMENT));
    assert!((0..11).all(|frame| shown(&figure, &movement, 0, frame) == Some(false)));
}

#[test]
fn corners() {
    let figure = figure(&grouped());
    let plain = Corner {
        position: [1_500_000, 0, 0],
        owner: 0,
        uv: None,
        material: 0,
    };
    assert_eq!(corner(&figure, 0, 1), Some(plain));
    let textured = Corner {
        uv: Some([0, -2_000_000]),
        ..plain
    };
    assert_eq!(corner(&figure, 2, 1), Some(textured));
    let last = corner(&figure, 2, 3).unwrap();
    assert_eq!(last.uv, Some([500_000, 1_000_000]));
    let free = corner(&figure, 3, 2).unwrap();
    assert_eq!((free.owner, free.position), (-1, [0, -1, 0]));
    for (face, number) in [(0, 3), (2, 4), (0, -1), (4, 0), (-1, 0)] {
        assert_eq!(corner(&figure, face, number), None);
    }
}

#[test]
fn labels() {
    let ours = changed(FIGURE, "(bone", "(bone(name \"same\")");
    let theirs = changed(MOVEMENT, "(bone", "(bone(name \"same\")");
    let empty = changed(MOVEMENT, "(bone", "(bone(name \"\")");
    let cases = [
        (ours.as_str(), theirs.as_str(), &b"same"[..]),
        (FIGURE, &theirs, b"same"),
        (&ours, MOVEMENT, b"same"),
        (&ours, &empty, b"same"),
        (FIGURE, MOVEMENT, b""),
    ];
    for (figure_text, movement_text, expected) in cases {
        let (figure, movement) = (figure(figure_text), movement(movement_text));
        let of = |bone| {
            label(
                &figure,
                figure_text.as_bytes(),
                &movement,
                movement_text.as_bytes(),
                bone,
            )
        };
        assert_eq!(of(0), Some(expected));
        assert_eq!((of(1), of(-1)), (None, None));
    }
    // Where both have one it is a part of the movement's text.
    let (figure, movement) = (figure(&ours), movement(&theirs));
    let found = label(&figure, ours.as_bytes(), &movement, theirs.as_bytes(), 0).unwrap();
    let place = theirs.find("same").unwrap();
    assert!(std::ptr::eq(found, &theirs.as_bytes()[place..place + 4]));
}
