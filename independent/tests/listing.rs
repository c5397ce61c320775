//! The listings, to the byte.

mod common;

use common::{changed, FIGURE, MOVEMENT};
use independent::listing::{figure_listing, figure_rows, movement_listing, movement_rows};
use independent::{figure, limits, many, movement};

const FIGURE_LISTING: &str = "figure\t57
name\t0\t0
material\t0\t0\t0\t1\t-1\t-1\t250000\t0\t0
point\t0\t0\t0
point\t1500000\t0\t0
point\t0\t-1\t0
normal\t0\t0\t1000000
normal\t0\t0\t1000000
normal\t0\t0\t1000000
bone\t0\t0\t0\t0\t0\t1000000\t0\t1000000\t0\t0\t0\t-1\t0\t0
owner\t0
owner\t0
owner\t-1
face\t0\t3\t0\t1\t2\t-1\t-1\t-1\t-1\t-1\t-1
";

#[test]
fn the_papers_figure() {
    assert_eq!(figure_listing(FIGURE.as_bytes()), FIGURE_LISTING);
}

#[test]
fn every_row_word_of_a_figure() {
    let text = changed(
        FIGURE,
        "(Figure",
        "(Figure(name \"ab\")(Textures(i2 256 -1))(Colors(f3 1 0.5 0))",
    );
    let text = changed(&text, "(Polygons", "(TextureCoords(f2 0.5 1))(Polygons");
    let text = changed(
        &text,
        "(i3 -1 -1 -1))))",
        "(i3 -1 -1 -1)))(DynamicPolygons(group(face 0(i4 2 1 0 0)(i4 0 0 0 0)))(group(name \"\"))))",
    );
    let text = changed(&text, "blendMode normal", "blendMode half");
    let text = changed(
        &text,
        "(specular 0.25)",
        "(shininess 0.5)(specular 0.25)(alpha 1)",
    );
    let name = text.find("ab").unwrap();
    let group = text.find("\"\"").unwrap() + 1;
    let listing = figure_listing(text.as_bytes());
    let expected = format!(
        "figure\t79
name\t{name}\t2
texture\t256\t-1
colour\t1000000\t500000\t0
material\t3\t0\t0\t1\t-1\t-1\t250000\t1000000\t500000
point\t0\t0\t0
point\t1500000\t0\t0
point\t0\t-1\t0
normal\t0\t0\t1000000
normal\t0\t0\t1000000
normal\t0\t0\t1000000
bone\t0\t0\t0\t0\t0\t1000000\t0\t1000000\t0\t0\t0\t-1\t0\t0
owner\t0
owner\t0
owner\t-1
uv\t500000\t1000000
face\t0\t3\t0\t1\t2\t-1\t-1\t-1\t-1\t-1\t-1
face\t0\t4\t2\t1\t0\t0\t0\t0\t0\t0\t0
group\t0\t0
group\t{group}\t0
"
    );
    assert_eq!(listing, expected);
}

#[test]
fn a_refusal_is_one_line() {
    assert_eq!(figure_listing(b""), "refused\t2\t0\n");
    assert_eq!(figure_listing(b";BAC\n("), "refused\t5\t6\n");
    assert_eq!(movement_listing(b";BAC\n("), "refused\t2\t0\n");
}

/// The channels stand out of order here; the rows follow their numbers.
#[test]
fn a_movement() {
    let text = changed(MOVEMENT, "(translate.x(kf 0 0))", "");
    let text = changed(&text, "(bone\n", "(bone(name \"b;\")");
    let text = changed(
        &text,
        "(rotate.z(kf 0 1))",
        "(rotate.z(kf 0 1))(translate.x(kf 0 -7)(kf 2 0.5))",
    );
    let name = text.find("b;").unwrap();
    let expected = format!(
        "movement\t57
frames\t11
name\t0\t0
bone\t{name}\t2\t0\t2\t2\t1\t3\t1\t4\t1\t5\t1\t6\t1\t7\t1\t8\t1\t9\t1\t10\t3
key\t0\t-7000000
key\t2\t500000
key\t0\t0
key\t0\t0
key\t0\t100000000
key\t0\t100000000
key\t0\t100000000
key\t0\t0
key\t0\t0
key\t0\t1000000
key\t0\t0
key\t3\t46406628
key\t6\t132590363
pattern\t0\t0\t1
pattern\t4\t1\t0
"
    );
    assert_eq!(movement_listing(text.as_bytes()), expected);
}

/// The rows have as many numbers as the total says.
#[test]
fn totals_count_the_rows_numbers() {
    let figure = figure::read(FIGURE.as_bytes(), limits::FIGURE_ROOM).unwrap();
    let rows = figure_rows(&figure).unwrap();
    let numbers: usize = rows.iter().map(|row| row.1.len()).sum();
    assert_eq!(numbers, figure.total());
    let movement = movement::read(MOVEMENT.as_bytes(), limits::MOVEMENT_ROOM).unwrap();
    let numbers: usize = movement_rows(&movement).iter().map(|row| row.1.len()).sum();
    assert_eq!(numbers, movement.total());
}

#[test]
fn records_come_back_as_written() {
    let texts: [&[u8]; 3] = [b"", b"00000003\nabc", b"\n\xff"];
    let stream: Vec<u8> = texts.iter().flat_map(|text| many::record(text)).collect();
    assert!(stream.starts_with(b"00000000\n00000012\n00000003\nabc"));
    assert_eq!(many::split(&stream).unwrap(), texts);
    for bad in ["1", "0000000a\n", "00000002\na", "000000001"] {
        assert!(many::split(bad.as_bytes()).is_err(), "{bad:?}");
    }
}
