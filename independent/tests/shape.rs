//! "The first word that cannot continue the shape": figures.

mod common;

use common::{changed, figure_refusal, figure_stops, up_to, FIGURE};
use independent::token;

const REST: &str = " ) ( name \"x\" ) )";

/// The figure with every optional part.
fn rich() -> String {
    let text = changed(
        FIGURE,
        "(Figure",
        "(Figure(name \"n\")(Textures(i2 8 8))(Colors(f3 0 0 0))",
    );
    let text = changed(
        &text,
        "(specular 0.25)",
        "(specular 0.25)(alpha 0)(shininess 1)",
    );
    let text = changed(&text, "(bone", "(bone(name \"b\")");
    let text = changed(&text, "(Polygons", "(TextureCoords(f2 0 1))(Polygons");
    changed(
        &text,
        "(i3 -1 -1 -1))))",
        "(i3 -1 -1 -1)))(DynamicPolygons(group(name \"g\")(face 0(i4 0 0 0 0)(i4 0 0 0 0)))))",
    )
}

#[test]
fn the_rich_figure_is_sound() {
    assert_eq!(figure_refusal(rich()), None);
}

/// Cut before any token, the text is refused at its length.
#[test]
fn a_missing_token_is_refused_at_the_texts_length() {
    for text in [FIGURE.to_string(), rich()] {
        for token in token::lex(text.as_bytes(), b";BAC").unwrap() {
            figure_stops(&text[..token.offset], "", 5);
        }
    }
}

#[test]
fn a_wrong_keyword_where_a_chunk_may_open() {
    figure_stops(";BAC\n(", "Figure(", 5);
    figure_stops(";BAC\n(Head(", "traVersion 4.0))", 5);
    let figure = up_to(FIGURE, "(Figure");
    for keyword in [
        "Vertices",
        "Bones",
        "Polygons",
        "material",
        "\"Materials\"",
        "(",
        ")",
    ] {
        figure_stops(&format!("{figure}("), &format!("{keyword}{REST}"), 5);
    }
    figure_stops(&format!("{figure}(Materials("), "pnt 0 0 0)", 5);
    figure_stops(&format!("{figure}(Materials(material("), "handle 0 0 0)", 5);
    figure_stops(&(up_to(FIGURE, "(Vertices") + "("), "normals)", 5);
    figure_stops(&(up_to(FIGURE, "0.000001 0))") + "\n("), "coords)", 5);
    figure_stops(&(up_to(FIGURE, "(face 0") + "("), "i5 0 0 0)", 5);
    let polygons = up_to(FIGURE, "(i3 -1 -1 -1)))");
    figure_stops(&format!("{polygons}("), "Polygons)", 5);
    figure_stops(&format!("{polygons}("), "group)", 5);
}

/// The optional chunks of `Figure` stand in one order.
#[test]
fn chunks_of_the_figure_out_of_order() {
    let figure = up_to(FIGURE, "(Figure");
    figure_stops(&format!("{figure}(name \"a\")("), "name \"b\")", 5);
    figure_stops(&format!("{figure}(Textures)("), "name \"b\")", 5);
    figure_stops(&format!("{figure}(Textures)("), "Textures)", 5);
    figure_stops(&format!("{figure}(Colors)("), "Textures)", 5);
    let materials = up_to(FIGURE, "(specular 0.25)))");
    figure_stops(&format!("{materials}("), "Colors)", 5);
    figure_stops(&format!("{materials}("), "Bones)", 5);
    let bones = up_to(FIGURE, "(vertexIndices 0 1)))");
    figure_stops(&format!("{bones}("), "DynamicPolygons)", 5);
    figure_stops(&format!("{bones}(TextureCoords)("), "TextureCoords)", 5);
}

#[test]
fn a_bracket_where_no_chunk_may_open() {
    figure_stops(";BAC\n(Head(bacVersion 6.0", "(Figure", 5);
    figure_stops(";BAC\n(Head(bacVersion 6.0)", "(bacVersion 6.0)", 5);
    let rich = rich();
    figure_stops(&up_to(&rich, "(shininess 1)"), "(alpha 0)", 5);
    figure_stops(&up_to(&rich, "(vertexIndices 0 1)"), "(name \"x\")", 5);
    figure_stops(&up_to(&rich, "(i4 0 0 0 0)(i4 0 0 0 0)"), "(i4 0 0 0 0)", 5);
    let all_but_one = &rich[..rich.len() - 2];
    figure_stops(all_but_one, "(DynamicPolygons)", 5);
    figure_stops(
        &up_to(FIGURE, "(vct 0 0 1)(vct 0 0 1)(vct 0 0 1))"),
        "(normals)",
        5,
    );
    figure_stops(&up_to(FIGURE, "(pnt 1.5 0 0"), "(pnt)", 5);
}

#[test]
fn a_chunk_closed_too_early() {
    let figure = up_to(FIGURE, "(Figure");
    figure_stops(";BAC\n(Head", "))", 5);
    figure_stops(&figure, ")", 5);
    figure_stops(&format!("{figure}(Materials"), "))", 5);
    figure_stops(&format!("{figure}(Materials(material"), "))", 5);
    figure_stops(&up_to(FIGURE, "(colorIndex -1)"), ")", 5);
    figure_stops(&up_to(FIGURE, "(coords"), "))", 5);
    figure_stops(&up_to(FIGURE, "0.000001 0))"), "))", 5);
    figure_stops(&up_to(FIGURE, "(Bones"), "))", 5);
    figure_stops(&up_to(FIGURE, "(rotate 0 0 1)"), "))", 5);
    figure_stops(&up_to(FIGURE, "(vertexIndices 0 1)))"), ")", 5);
    figure_stops(&up_to(FIGURE, "(face 0"), "))", 5);
    figure_stops(&up_to(FIGURE, "(i3 0 1 2)"), "))", 5);
    figure_stops(&up_to(FIGURE, "(i3 0 1"), "))", 5);
}

#[test]
fn a_repeated_chunk_of_a_free_order() {
    figure_stops(
        &(up_to(FIGURE, "(lighting true)") + "("),
        "lighting true)",
        5,
    );
    figure_stops(
        &(up_to(FIGURE, "(handle 0 1 0)") + "("),
        "hasChild true)",
        5,
    );
    figure_stops(&(up_to(&rich(), "(alpha 0)") + "("), "alpha 0)", 5);
}

#[test]
fn the_second_corner_list_is_as_the_first() {
    figure_stops(&(up_to(FIGURE, "(i3 0 1 2)") + "("), "i4 -1 -1 -1 -1)))", 5);
    let four = changed(
        FIGURE,
        "(i3 0 1 2)(i3 -1 -1 -1)",
        "(i4 0 1 2 2)(i4 -1 -1 -1 -1)",
    );
    assert_eq!(figure_refusal(&four), None);
    figure_stops(&(up_to(&four, "(i4 0 1 2 2)") + "("), "i3 -1 -1 -1)))", 5);
    figure_stops(&(up_to(FIGURE, "(i3 0 1 2") + " "), "2)(i3 -1 -1 -1))))", 5);
}

#[test]
fn anything_behind_the_last_bracket() {
    for token in ["(", ")", "x", "\"x\"", "0"] {
        figure_stops(FIGURE, token, 5);
    }
}

#[test]
fn the_version() {
    let before = ";BAC\n(Head(bacVersion ";
    for word in ["6.00", "4.0", "6", "x", "-", "!", "~"] {
        figure_stops(before, &format!("{word}))"), 7);
    }
    for token in ["(", ")", "\"6.0\""] {
        figure_stops(before, &format!("{token}))"), 5);
    }
    figure_stops(&format!("{before}6.0 "), "6.0))", 5);
}

/// A group's name comes first or not at all.
#[test]
fn groups() {
    let dynamic = up_to(FIGURE, "(i3 -1 -1 -1)))") + "(DynamicPolygons";
    let face = "(face 0(i3 0 0 0)(i3 -1 -1 -1))";
    for group in [
        "",
        "(group)",
        "(group(name \"g\"))",
        &format!("(group{face})"),
        &format!("(group(name \"\"){face}{face})(group)"),
    ] {
        assert_eq!(
            figure_refusal(format!("{dynamic}{group}))")),
            None,
            "{group}"
        );
    }
    figure_stops(&format!("{dynamic}(group{face}("), "name \"g\")))", 5);
    figure_stops(&format!("{dynamic}(group(name \"g\")("), "name \"g\")))", 5);
    figure_stops(&format!("{dynamic}(group(name "), "g)))", 5);
    figure_stops(&format!("{dynamic}("), "face 0", 5);
}

#[test]
fn words_that_must_be_one_of_a_few() {
    figure_stops(&up_to(FIGURE, "(blendMode "), "mul)", 5);
    figure_stops(&up_to(FIGURE, "(doubleFace "), "True)", 5);
    figure_stops(&up_to(FIGURE, "(hasChild "), "1)", 5);
    figure_stops(&up_to(FIGURE, "(vertexIndices 0 "), "\"1\")", 5);
    figure_stops(&up_to(FIGURE, "(vertexIndices 0 "), "x)", 5);
    figure_stops(&up_to(FIGURE, "(vertexIndices 0 "), "12345678901)", 6);
    let none = changed(FIGURE, "(vertexIndices 0 1)", "(vertexIndices)");
    assert_eq!(figure_refusal(none), None);
    let absent = changed(FIGURE, "(vertexIndices 0 1)", "");
    assert_eq!(figure_refusal(absent), None);
}

/// 5, 6 and 7 go by the first token that offends.
#[test]
fn the_first_offending_token_decides() {
    let text = changed(FIGURE, "6.0", "6.1");
    let text = changed(&text, "pnt 1.5", "pnt 1.5555555");
    let version = text.find("6.1").unwrap();
    let number = text.find("1.5555555").unwrap();
    figure_stops(&text[..version], &text[version..], 7);
    let text = changed(&text, "6.1", "6.0");
    figure_stops(&text[..number], &text[number..], 6);
    let text = changed(&text, "(coords", "(Coords");
    let keyword = text.find("Coords").unwrap();
    figure_stops(&text[..keyword], &text[keyword..], 5);
}
