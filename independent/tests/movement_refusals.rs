//! Refusals 8 and 14 to 17 of movements.

mod common;

use common::{
    changed, movement_bone as bone, movement_of_lines, movement_refusal, refusal, MOVEMENT,
};
use independent::{limits, movement};

#[test]
fn eight_too_many_rows() {
    let short = changed(bone(), "(kf 3 46.406628)(kf 6 132.590363)", "");
    let with_bones = |count: usize| changed(MOVEMENT, bone(), &short.repeat(count));
    assert_eq!(movement_refusal(with_bones(128)), None);
    assert_eq!(movement_refusal(with_bones(129)), refusal(8, 0));

    let with_keys = |count: usize| {
        let keys: String = (7..count - 5)
            .map(|frame| format!("(kf {frame} 0)"))
            .collect();
        let text = changed(
            MOVEMENT,
            "(kf 6 132.590363)",
            &format!("(kf 6 132.590363){keys}"),
        );
        changed(&text, "totalFrame 11", "totalFrame 32767")
    };
    assert_eq!(movement_refusal(with_keys(4_096)), None);
    let read = movement::read(with_keys(4_096).as_bytes(), limits::MOVEMENT_ROOM).unwrap();
    assert_eq!(read.key_count(), 4_096);
    assert_eq!(movement_refusal(with_keys(4_097)), refusal(8, 1));

    let with_patterns = |count: usize| {
        let lines = "(kgf 4 1 false)".repeat(count - 1);
        changed(MOVEMENT, "(kgf 4 1 false)", &lines)
    };
    assert_eq!(movement_refusal(with_patterns(256)), None);
    assert_eq!(movement_refusal(with_patterns(257)), refusal(8, 2));
}

#[test]
fn fourteen_total_frames() {
    let one = changed(MOVEMENT, "(kf 3 46.406628)(kf 6 132.590363)", "");
    let one = changed(&one, "(kgf 4 1 false)", "");
    for (frames, expected) in [
        ("0", refusal(14, 0)),
        ("1", None),
        ("-1", refusal(14, 0)),
        ("32767", None),
        ("32768", refusal(14, 0)),
    ] {
        let text = changed(&one, "totalFrame 11", &format!("totalFrame {frames}"));
        assert_eq!(movement_refusal(text), expected, "{frames}");
    }
}

#[test]
fn fifteen_key_frames() {
    let roll = |keys: &str| changed(MOVEMENT, "(kf 0 0)(kf 3 46.406628)(kf 6 132.590363)", keys);
    for (keys, expected) in [
        ("(kf 0 0)(kf 10 0)", None),
        ("(kf 1 0)", refusal(15, 9)),
        ("(kf -1 0)(kf 0 0)", refusal(15, 9)),
        ("(kf 0 0)(kf 0 0)", refusal(15, 10)),
        ("(kf 0 0)(kf 5 0)(kf 3 0)(kf 4 0)", refusal(15, 11)),
        ("(kf 0 0)(kf 4 0)(kf 11 0)(kf 2 0)", refusal(15, 11)),
        ("(kf 0 0)(kf -1 0)", refusal(15, 10)),
    ] {
        assert_eq!(movement_refusal(roll(keys)), expected, "{keys}");
    }
}

/// Key rows follow bone and channel number, not the text's order.
#[test]
fn fifteen_counts_by_channel_number() {
    let text = changed(MOVEMENT, "(translate.x(kf 0 0))", "");
    let text = changed(
        &text,
        "(roll(kf 0 0)",
        "(translate.x(kf 0 0)(kf 1 0)(kf 1 0))(roll(kf 0 0)",
    );
    assert_eq!(movement_refusal(&text), refusal(15, 2));
    // A fault of a later channel that stands earlier in the text.
    let both = changed(&text, "(scale.x(kf 0 100))", "(scale.x(kf 5 100))");
    assert_eq!(movement_refusal(&both), refusal(15, 2));
    // In the second bone the rows of the first are counted too.
    let second = changed(bone(), "(rotate.x(kf 0 0))", "(rotate.x(kf 2 0))");
    let text = changed(MOVEMENT, bone(), &format!("{}{second}", bone()));
    assert_eq!(movement_refusal(text), refusal(15, 12 + 6));
}

#[test]
fn sixteen_patterns() {
    for (lines, expected) in [
        ("0 0 true, 0 0 false, 10 2147483647 true", None),
        ("1 0 true", refusal(16, 0)),
        ("0 -1 true", refusal(16, 0)),
        // Frames may fall.
        ("0 0 true, 5 0 true, 4 0 true", None),
        ("10 1 true, 4 0 true, 0 2 true", None),
        ("0 0 true, 11 0 true", refusal(16, 1)),
        ("0 0 true, -1 0 true", refusal(16, 1)),
        // The first row with a fault, before the frame 0 or behind it.
        ("3 0 true, 11 0 true, 0 0 true, -1 0 true", refusal(16, 1)),
        ("3 0 true, 0 0 true, 2 -1 true, 11 0 true", refusal(16, 2)),
        // None has frame 0, whatever other faults there are.
        ("3 0 true, 2 1 false, 10 0 true", refusal(16, 0)),
        ("3 0 true, 2 -1 false, -1 0 true", refusal(16, 0)),
        ("11 0 true, 2 -1 false", refusal(16, 0)),
        // The one that has it has a bad group.
        ("3 0 true, 2 0 true, 0 -1 true", refusal(16, 2)),
        ("3 -1 true, 2 0 true, 0 -1 true", refusal(16, 0)),
    ] {
        let text = movement_of_lines(11, lines);
        assert_eq!(movement_refusal(text), expected, "{lines}");
    }
}

#[test]
fn the_lowest_number_wins() {
    let mut text = changed(MOVEMENT, "(kgf 0 0 true)", "(kgf 0 -1 true)");
    assert_eq!(movement_refusal(&text), refusal(16, 0));
    text = changed(&text, "(kf 3 46.406628)", "(kf 7 46.406628)");
    assert_eq!(movement_refusal(&text), refusal(15, 11));
    text = changed(&text, "totalFrame 11", "totalFrame 0");
    assert_eq!(movement_refusal(&text), refusal(14, 0));
    text = changed(&text, "(kgf 4 1 false)", &"(kgf 4 1 false)".repeat(256));
    assert_eq!(movement_refusal(&text), refusal(8, 2));
}

/// Only a smaller table than the listing's can be too short.
#[test]
fn seventeen_room() {
    let total = 3 + 22 + 2 * 12 + 3 * 2;
    assert!(movement::read(MOVEMENT.as_bytes(), total).is_ok());
    let short = movement::read(MOVEMENT.as_bytes(), total - 1);
    assert_eq!(short.err(), refusal(17, total));
    assert_eq!(limits::MOVEMENT_ROOM, 11_779);
}
