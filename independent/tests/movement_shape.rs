//! "The first word that cannot continue the shape": movements.

mod common;

use common::{changed, movement_refusal, movement_stops, up_to, MOVEMENT};
use independent::token;

#[test]
fn the_movement_is_sound() {
    assert_eq!(movement_refusal(MOVEMENT), None);
    let named = changed(MOVEMENT, "(Figure", "(Figure(name \"\")");
    let named = changed(&named, "(bone", "(bone(name \"b\")");
    assert_eq!(movement_refusal(named), None);
    let bare = changed(
        MOVEMENT,
        "\n(DynamicPolygons(kgf 0 0 true)(kgf 4 1 false))",
        "",
    );
    assert_eq!(movement_refusal(bare), None);
    let none = changed(MOVEMENT, "(kgf 0 0 true)(kgf 4 1 false)", "");
    assert_eq!(movement_refusal(none), None);
}

#[test]
fn a_missing_token_is_refused_at_the_texts_length() {
    for token in token::lex(MOVEMENT.as_bytes(), b";TRA").unwrap() {
        movement_stops(&MOVEMENT[..token.offset], "", 5);
    }
}

#[test]
fn a_wrong_keyword_where_a_chunk_may_open() {
    let figure = up_to(MOVEMENT, "(Figure");
    movement_stops(";TRA\n(Head(", "bacVersion 6.0))", 5);
    movement_stops(&format!("{figure}("), "bone)", 5);
    movement_stops(&format!("{figure}(name \"a\")("), "name \"a\")", 5);
    movement_stops(
        &(up_to(MOVEMENT, "(totalFrame 11)") + "("),
        "DynamicPolygons)",
        5,
    );
    movement_stops(
        &(up_to(MOVEMENT, "(totalFrame 11)") + "("),
        "totalFrame 11)",
        5,
    );
    movement_stops(&(up_to(MOVEMENT, "(bone") + "("), "translate 0 0 0)", 5);
    movement_stops(&(up_to(MOVEMENT, "(bone") + "("), "hasChild true)", 5);
    movement_stops(&(up_to(MOVEMENT, "(translate.x") + "("), "kgf 0 0 true)", 5);
    movement_stops(
        &(up_to(MOVEMENT, "132.590363)))") + "\n("),
        "name \"x\")",
        5,
    );
    movement_stops(&(up_to(MOVEMENT, "(DynamicPolygons") + "("), "kf 0 0)", 5);
}

/// A bone's name comes first or not at all.
#[test]
fn a_name_behind_a_channel() {
    movement_stops(
        &(up_to(MOVEMENT, "(translate.x(kf 0 0))") + "("),
        "name \"b\")",
        5,
    );
    movement_stops(
        &(up_to(MOVEMENT, "(bone") + "(name \"b\")("),
        "name \"b\")",
        5,
    );
}

#[test]
fn a_bracket_where_no_chunk_may_open() {
    movement_stops(";TRA\n(Head(traVersion 4.0", "(Figure", 5);
    movement_stops(&up_to(MOVEMENT, "132.590363))"), "(roll(kf 0 0)))", 5);
    movement_stops(&up_to(MOVEMENT, "(kgf 4 1 false))"), "(bone)", 5);
    movement_stops(&up_to(MOVEMENT, "(kf 3 46.406628"), "(kf 4 1))", 5);
}

#[test]
fn a_chunk_closed_too_early() {
    movement_stops(&up_to(MOVEMENT, "(Figure"), ")", 5);
    movement_stops(&up_to(MOVEMENT, "(totalFrame 11)"), ")", 5);
    movement_stops(&up_to(MOVEMENT, "(roll"), "))", 5);
    movement_stops(&up_to(MOVEMENT, "(kf 3"), "))", 5);
}

#[test]
fn a_repeated_channel() {
    movement_stops(
        &(up_to(MOVEMENT, "(scale.y(kf 0 100))") + "("),
        "scale.x(kf 0 100))",
        5,
    );
}

#[test]
fn anything_behind_the_last_bracket() {
    for token in ["(", ")", "x", "\"x\""] {
        movement_stops(MOVEMENT, token, 5);
    }
}

#[test]
fn the_version() {
    let before = ";TRA\n(Head(traVersion ";
    for word in ["4.00", "6.0", "4"] {
        movement_stops(before, &format!("{word}))"), 7);
    }
    for token in ["(", ")", "\"4.0\""] {
        movement_stops(before, &format!("{token}))"), 5);
    }
}

#[test]
fn numbers_and_flags() {
    movement_stops(&up_to(MOVEMENT, "(totalFrame "), "1.0)", 5);
    movement_stops(&up_to(MOVEMENT, "(totalFrame "), "2147483648)", 6);
    movement_stops(&up_to(MOVEMENT, "(kf 3 "), "1.)", 5);
    movement_stops(&up_to(MOVEMENT, "(kf 3 "), "1.0000000)", 6);
    movement_stops(&up_to(MOVEMENT, "(kgf 4 1 "), "no)", 5);
    movement_stops(&up_to(MOVEMENT, "(kgf 4 1"), "))", 5);
}
