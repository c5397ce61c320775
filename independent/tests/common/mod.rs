//! Texts and checks that the tests share.
#![allow(dead_code)]

use independent::refusal::Refusal;
use independent::{figure, limits, movement};

/// The figure of the paper's listing.
pub const FIGURE: &str = ";BAC
(Head(bacVersion 6.0))(Figure(Materials(material
(blendMode normal)(doubleFace false)(transparent false)
(lighting true)(textureIndex -1)(colorIndex -1)(specular 0.25)))
(Vertices(coords(pnt 0 0 0)(pnt 1.5 0 0)(pnt 0 -0.000001 0))
(normals(vct 0 0 1)(vct 0 0 1)(vct 0 0 1)))
(Bones(bone(hasChild false)(hasBrother false)(translate 0 0 0)
(rotate 0 0 1)(handle 0 1 0)(vertexIndices 0 1)))
(Polygons(face 0(i3 0 1 2)(i3 -1 -1 -1))))
";

/// A small movement of one bone; its channels have one key each but `roll`.
pub const MOVEMENT: &str = ";TRA
(Head(traVersion 4.0))(Figure(totalFrame 11)(bone
(translate.x(kf 0 0))(translate.y(kf 0 0))(translate.z(kf 0 0))
(scale.x(kf 0 100))(scale.y(kf 0 100))(scale.z(kf 0 100))
(rotate.x(kf 0 0))(rotate.y(kf 0 0))(rotate.z(kf 0 1))
(roll(kf 0 0)(kf 3 46.406628)(kf 6 132.590363)))
(DynamicPolygons(kgf 0 0 true)(kgf 4 1 false)))
";

/// The text with one part replaced; the part must stand in it once.
pub fn changed(text: &str, from: &str, to: &str) -> String {
    assert_eq!(text.matches(from).count(), 1, "{from:?} stands not once");
    text.replacen(from, to, 1)
}

/// The text up to and with a part that stands in it once.
pub fn up_to(text: &str, part: &str) -> String {
    assert_eq!(text.matches(part).count(), 1, "{part:?} stands not once");
    let end = text.find(part).unwrap() + part.len();
    text[..end].to_string()
}

/// The part of a text from `start` up to `end`.
fn part<'a>(text: &'a str, start: &str, end: &str) -> &'a str {
    &text[text.find(start).unwrap()..text.find(end).unwrap()]
}

/// The bone of the paper's figure.
fn figure_bone() -> &'static str {
    part(FIGURE, "(bone(", ")\n(Polygons")
}

/// The bone of the small movement.
pub fn movement_bone() -> &'static str {
    part(MOVEMENT, "(bone\n", "\n(DynamicPolygons")
}

/// The names of a text's bones, none for an absent one.
pub type Names<'a> = [Option<&'a str>];

fn named(bone: &str, name: Option<&str>) -> String {
    match name {
        Some(name) => changed(bone, "(bone", &format!("(bone(name \"{name}\")")),
        None => bone.into(),
    }
}

/// The paper's figure with so many groups, and bones of these names that are
/// brothers. The first has the two points.
pub fn figure_of(names: &Names, groups: usize) -> String {
    let bone = |(row, &name)| {
        let mut bone = named(figure_bone(), name);
        if row + 1 < names.len() {
            bone = changed(&bone, "hasBrother false", "hasBrother true");
        }
        if row > 0 {
            bone = changed(&bone, "(vertexIndices 0 1)", "");
        }
        bone
    };
    let bones: String = names.iter().enumerate().map(bone).collect();
    let text = changed(FIGURE, figure_bone(), &bones);
    let groups = format!(")))(DynamicPolygons{}))\n", "(group)".repeat(groups));
    changed(&text, "))))\n", &groups)
}

/// The small movement with bones of these names and these pattern lines.
pub fn movement_of(names: &Names, lines: &str) -> String {
    let bones = names.iter().map(|&name| named(movement_bone(), name));
    let text = changed(MOVEMENT, movement_bone(), &bones.collect::<String>());
    changed(&text, "(kgf 0 0 true)(kgf 4 1 false)", lines)
}

/// One face of `Polygons`, one of group 0, two of group 1; the last has a
/// corner without a bone.
pub fn grouped() -> String {
    let text = changed(
        FIGURE,
        "(i3 0 1 2)(i3 -1 -1 -1)))",
        "(i3 0 1 0)(i3 -1 -1 -1)))(DynamicPolygons
        (group(face 0(i3 0 0 1)(i3 -1 -1 -1)))
        (group(face 0(i4 0 1 0 1)(i4 1 1 0 0))(face 0(i3 0 1 2)(i3 -1 -1 -1))))",
    );
    changed(
        &text,
        "(Polygons",
        "(TextureCoords(f2 0.5 1)(f2 0 -2))(Polygons",
    )
}

/// A movement of so many frames with these pattern lines, parted by commas. Its
/// channels have one key each.
pub fn movement_of_lines(total_frames: i64, lines: &str) -> String {
    let lines = lines.split(", ").filter(|line| !line.is_empty());
    let chunks: String = lines.map(|line| format!("(kgf {line})")).collect();
    let text = changed(MOVEMENT, "(kf 3 46.406628)(kf 6 132.590363)", "");
    let frames = format!("totalFrame {total_frames}");
    let text = changed(&text, "totalFrame 11", &frames);
    changed(&text, "(kgf 0 0 true)(kgf 4 1 false)", &chunks)
}

pub fn refusal(number: u8, place: usize) -> Option<Refusal> {
    Some(Refusal::new(number, place))
}

/// What a figure is refused with, if it is.
pub fn figure_refusal(text: impl AsRef<[u8]>) -> Option<Refusal> {
    figure::read(text.as_ref(), limits::FIGURE_ROOM).err()
}

/// What a movement is refused with, if it is.
pub fn movement_refusal(text: impl AsRef<[u8]>) -> Option<Refusal> {
    movement::read(text.as_ref(), limits::MOVEMENT_ROOM).err()
}

/// A figure of `before` and `after` is refused at the first token of `after`.
pub fn figure_stops(before: &str, after: &str, number: u8) {
    let found = figure_refusal(format!("{before}{after}"));
    assert_eq!(found, refusal(number, before.len()), "{before}<>{after}");
}

/// A movement of `before` and `after` is refused at the first token of
/// `after`.
pub fn movement_stops(before: &str, after: &str, number: u8) {
    let found = movement_refusal(format!("{before}{after}"));
    assert_eq!(found, refusal(number, before.len()), "{before}<>{after}");
}
