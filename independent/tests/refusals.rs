//! Each refusal number with its place, and the order among them: figures
//! and the words of both formats.

mod common;

use common::{changed, figure_refusal, refusal, FIGURE};
use independent::{figure, limits};

#[test]
fn one_a_text_that_is_too_long() {
    let mut text = FIGURE.as_bytes().to_vec();
    text.resize(65_536, b' ');
    assert_eq!(figure_refusal(&text), None);
    text.push(b' ');
    assert_eq!(figure_refusal(&text), refusal(1, 0));
    assert_eq!(figure_refusal(vec![b'x'; 65_537]), refusal(1, 0));
}

#[test]
fn three_a_byte_in_no_word() {
    for byte in [0, 8, 11, 12, 14, 31, 127, 128, 255] {
        let mut text = FIGURE.as_bytes().to_vec();
        text.insert(40, byte);
        assert_eq!(figure_refusal(&text), refusal(3, 40), "{byte}");
    }
    // In a string a tab or a line feed is no blank.
    for byte in [0, 9, 10, 13, 31, 127, 128] {
        let mut text = b";BAC\n(\"ab".to_vec();
        text.push(byte);
        text.extend(b"\"");
        assert_eq!(figure_refusal(&text), refusal(3, 9), "{byte}");
    }
}

#[test]
fn four_a_string_without_end() {
    assert_eq!(figure_refusal(";BAC\n(\"abc"), refusal(4, 6));
    assert_eq!(figure_refusal(";BAC\n("), refusal(5, 6));
    let full = format!(";BAC\n\"{}", "x".repeat(255));
    assert_eq!(figure_refusal(full), refusal(4, 5));
}

/// 3 and 4 by what is met first; both come before 5.
#[test]
fn three_and_four_as_met() {
    // The bad byte is met before the text's end.
    assert_eq!(figure_refusal(";BAC\n\"ab\n"), refusal(3, 8));
    // The 256th content byte is 4 whatever it is, the 255th is not.
    let long = format!(";BAC\n\"{}\n\"", "x".repeat(255));
    assert_eq!(figure_refusal(long), refusal(4, 5));
    let short = format!(";BAC\n\"{}\n\"", "x".repeat(254));
    assert_eq!(figure_refusal(short), refusal(3, 260));
    // A string that is too long before a bad byte, and the other way round.
    let long = "x".repeat(256);
    assert_eq!(
        figure_refusal(format!(";BAC\n\"{long}\"\x01")),
        refusal(4, 5)
    );
    assert_eq!(
        figure_refusal(format!(";BAC\n\x01\"{long}\"")),
        refusal(3, 5)
    );
    // Both come before a wrong token that stands earlier.
    assert_eq!(figure_refusal(";BAC\n) ) \x01"), refusal(3, 9));
}

/// A figure with so many rows in one list; the other lists stay small.
fn with_rows(list: usize, count: usize) -> String {
    let rows = |row: &str, have: usize| row.repeat(count - have);
    match list {
        0 => changed(
            FIGURE,
            "(Figure",
            &format!("(Figure(Textures{})", rows("(i2 1 1)", 0)),
        ),
        1 => changed(
            FIGURE,
            "(Figure",
            &format!("(Figure(Colors{})", rows("(f3 0 0 0)", 0)),
        ),
        2 => {
            let start = FIGURE.find("(material").unwrap();
            let end = FIGURE.find("(Vertices").unwrap() - 2;
            let row = FIGURE[start..end].to_string();
            changed(FIGURE, &row, &row.repeat(count))
        }
        3 => changed(
            FIGURE,
            "(pnt 1.5 0 0)",
            &format!("(pnt 1.5 0 0){}", rows("(pnt 0 0 0)", 3)),
        ),
        4 => changed(
            FIGURE,
            "(normals",
            &format!("(normals{}", rows("(vct 0 0 0)", 3)),
        ),
        5 => {
            let start = FIGURE.find("(bone").unwrap();
            let end = FIGURE.find("(Polygons").unwrap() - 2;
            let row = changed(&FIGURE[start..end], "(vertexIndices 0 1)", "");
            let brother = changed(&row, "(hasBrother false)", "(hasBrother true)");
            changed(FIGURE, "(Bones", &format!("(Bones{}", rows(&brother, 1)))
        }
        6 => changed(
            FIGURE,
            "(Polygons",
            &format!("(TextureCoords{})(Polygons", rows("(f2 0 0)", 0)),
        ),
        7 => {
            let face = "(face 0(i3 0 0 0)(i3 -1 -1 -1))";
            let groups = format!(")(DynamicPolygons(group{})))", rows(face, 1));
            changed(FIGURE, "))))\n", &format!(")){groups}\n"))
        }
        _ => {
            let groups = format!(")(DynamicPolygons{}))", rows("(group)", 0));
            changed(FIGURE, "))))\n", &format!(")){groups}\n"))
        }
    }
}

const MOST: [usize; 9] = [16, 256, 64, 2_048, 2_048, 128, 4_096, 1_024, 32];

#[test]
fn eight_too_many_rows() {
    for (list, most) in MOST.into_iter().enumerate() {
        let past = with_rows(list, most + 1);
        assert_eq!(figure_refusal(&past), refusal(8, list), "{list}");
        // At the most it is not 8: taken, or a later refusal.
        let at = figure::read(with_rows(list, most).as_bytes(), 1 << 20);
        let expected = match list {
            3 => refusal(9, 3),
            4 => refusal(9, 2_048),
            _ => None,
        };
        assert_eq!(at.err(), expected, "{list}");
    }
}

/// Of two lists with too many rows the lower is named, and 8 before 9.
#[test]
fn eight_names_the_lowest_list() {
    let groups = with_rows(8, 33);
    let both = changed(
        &groups,
        "(Figure",
        &format!("(Figure(Textures{})", "(i2 1 1)".repeat(17)),
    );
    assert_eq!(figure_refusal(&both), refusal(8, 0));
    let both = changed(&groups, "(pnt 0 0 0)", "");
    assert_eq!(figure_refusal(&both), refusal(8, 8));
}

#[test]
fn nine_normals() {
    let fewer = changed(FIGURE, "(vct 0 0 1)(vct 0 0 1)(vct 0 0 1)", "(vct 0 0 1)");
    assert_eq!(figure_refusal(fewer), refusal(9, 1));
    let none = changed(FIGURE, "(vct 0 0 1)(vct 0 0 1)(vct 0 0 1)", "");
    assert_eq!(figure_refusal(none), refusal(9, 0));
    let more = changed(FIGURE, "(normals", "(normals(vct 0 0 1)");
    assert_eq!(figure_refusal(more), refusal(9, 4));
}

#[test]
fn ten_bones_that_are_not_one_list() {
    let runs_out = changed(FIGURE, "hasChild false", "hasChild true");
    assert_eq!(figure_refusal(runs_out), refusal(10, 1));
    let bone =
        "(bone(hasChild false)(hasBrother false)(translate 0 0 0)(rotate 0 0 1)(handle 0 1 0))";
    let left_over = changed(FIGURE, "(Bones", &format!("(Bones{bone}{bone}"));
    assert_eq!(figure_refusal(left_over), refusal(10, 1));
}

/// The figure with a second bone under the first, naming these vertices.
fn with_child(first: &str, second: &str) -> String {
    let text = changed(FIGURE, "hasChild false", "hasChild true");
    let child = format!(
        "(vertexIndices {first}))(bone(vertexIndices {second})(hasChild false)\
         (hasBrother false)(translate 0 0 0)(rotate 0 0 1)(handle 0 1 0))"
    );
    changed(&text, "(vertexIndices 0 1))", &child)
}

#[test]
fn eleven_vertices_of_bones() {
    assert_eq!(figure_refusal(with_child("0 2", "1")), None);
    assert_eq!(figure_refusal(with_child("0 2", "1 2")), refusal(11, 1));
    assert_eq!(figure_refusal(with_child("0 0", "1 2")), refusal(11, 0));
    assert_eq!(figure_refusal(with_child("0", "3")), refusal(11, 1));
    assert_eq!(figure_refusal(with_child("0", "-1")), refusal(11, 1));
    assert_eq!(figure_refusal(with_child("7", "0 0")), refusal(11, 0));
}

#[test]
fn twelve_materials() {
    let material = |from: &str, to: &str| figure_refusal(changed(FIGURE, from, to));
    for (from, to) in [
        ("textureIndex -1", "textureIndex 0"),
        ("textureIndex -1", "textureIndex -2"),
        ("colorIndex -1", "colorIndex 0"),
        ("colorIndex -1", "colorIndex -2"),
        ("specular 0.25", "specular -0.000001"),
        ("(specular 0.25)", "(specular 0)(alpha 1.000001)"),
        ("(specular 0.25)", "(specular 0)(shininess -1)"),
    ] {
        assert_eq!(material(from, to), refusal(12, 0), "{to}");
    }
    assert_eq!(material("specular 0.25", "specular -0"), None);
    let textured = changed(
        FIGURE,
        "(Figure",
        "(Figure(Textures(i2 1 1))(Colors(f3 0 0 0))",
    );
    let last = changed(&textured, "textureIndex -1", "textureIndex 0");
    let last = changed(&last, "colorIndex -1", "colorIndex 0");
    assert_eq!(figure_refusal(&last), None);
    let past = changed(&last, "colorIndex 0", "colorIndex 1");
    assert_eq!(figure_refusal(past), refusal(12, 0));
}

#[test]
fn thirteen_faces() {
    let face = |to: &str| figure_refusal(changed(FIGURE, "face 0(i3 0 1 2)(i3 -1 -1 -1)", to));
    assert_eq!(face("face 0(i3 2 2 2)(i3 -1 -1 -1)"), None);
    for to in [
        "face 1(i3 0 1 2)(i3 -1 -1 -1)",
        "face -1(i3 0 1 2)(i3 -1 -1 -1)",
        "face 0(i3 0 1 3)(i3 -1 -1 -1)",
        "face 0(i3 -1 1 2)(i3 -1 -1 -1)",
        "face 0(i3 0 1 2)(i3 0 0 0)",
        "face 0(i3 0 1 2)(i3 -2 -2 -2)",
    ] {
        assert_eq!(face(to), refusal(13, 0), "{to}");
    }
    let textured = changed(FIGURE, "(Polygons", "(TextureCoords(f2 0 0))(Polygons");
    for (uvs, expected) in [
        ("0 0 0", None),
        ("-1 -1 -1", None),
        ("0 -1 0", refusal(13, 0)),
        ("-1 -1 0", refusal(13, 0)),
        ("0 0 1", refusal(13, 0)),
    ] {
        let text = changed(&textured, "(i3 -1 -1 -1)", &format!("(i3 {uvs})"));
        assert_eq!(figure_refusal(text), expected, "{uvs}");
    }
}

/// Face rows count `Polygons` first, then group by group.
#[test]
fn thirteen_counts_faces_through_the_groups() {
    let good = "(face 0(i3 0 1 2)(i3 -1 -1 -1))";
    let bad = "(face 0(i3 0 1 9)(i3 -1 -1 -1))";
    let groups =
        format!(")(DynamicPolygons(group(name \"a\"){good})(group)(group{good}{bad}{bad})))");
    let text = changed(FIGURE, "))))\n", &format!(")){groups}\n"));
    assert_eq!(figure_refusal(text), refusal(13, 3));
}

#[test]
fn the_lowest_number_wins() {
    let mut text = changed(FIGURE, "(i3 0 1 2)", "(i3 0 1 3)");
    assert_eq!(figure_refusal(&text), refusal(13, 0));
    text = changed(&text, "specular 0.25", "specular 2");
    assert_eq!(figure_refusal(&text), refusal(12, 0));
    text = changed(&text, "vertexIndices 0 1", "vertexIndices 0 0");
    assert_eq!(figure_refusal(&text), refusal(11, 0));
    text = changed(&text, "hasBrother false", "hasBrother true");
    assert_eq!(figure_refusal(&text), refusal(10, 1));
    text = changed(&text, "(normals", "(normals(vct 0 0 0)");
    assert_eq!(figure_refusal(&text), refusal(9, 4));
    text = changed(
        &text,
        "(Figure",
        &format!("(Figure(Textures{})", "(i2 1 1)".repeat(17)),
    );
    assert_eq!(figure_refusal(&text), refusal(8, 0));
    text.push('x');
    assert_eq!(figure_refusal(&text), refusal(5, text.len() - 1));
}

#[test]
fn seventeen_room() {
    assert!(figure::read(FIGURE.as_bytes(), 57).is_ok());
    assert_eq!(figure::read(FIGURE.as_bytes(), 56).err(), refusal(17, 57));
    assert_eq!(figure::read(FIGURE.as_bytes(), 0).err(), refusal(17, 57));
    // 1,024 faces alone take more than the listing's room.
    let total = 57 + 11 * 1_023 + 2;
    assert!(total > limits::FIGURE_ROOM);
    assert_eq!(figure_refusal(with_rows(7, 1_024)), refusal(17, total));
    let bad = changed(FIGURE, "(i3 0 1 2)", "(i3 0 1 3)");
    assert_eq!(figure::read(bad.as_bytes(), 0).err(), refusal(13, 0));
}
