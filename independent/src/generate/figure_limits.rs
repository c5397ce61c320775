//! Large figures: at and past the most rows, and around the table's room.

use super::figure::{face, material, of_sizes, small_sizes, tree, Figure, Group, Sizes};
use super::number;
use super::render::Style;
use super::rng::Rng;
use crate::limits;

/// A short sound figure of these sizes, to be made large.
fn plain(rng: &mut Rng, sizes: Sizes) -> Figure {
    let mut figure = of_sizes(rng, sizes, Style::Compact, false);
    shorten_names(&mut figure);
    figure
}

fn shorten_names(figure: &mut Figure) {
    for bone in &mut figure.bones {
        bone.name = bone
            .name
            .take()
            .map(|name| name[..name.len().min(3)].to_vec());
    }
    for group in figure.groups.iter_mut().flatten() {
        group.name = group
            .name
            .take()
            .map(|name| name[..name.len().min(3)].to_vec());
    }
}

/// How many numbers a figure's table takes, counted from what it holds.
pub fn total(figure: &Figure) -> usize {
    let groups = figure.groups.as_deref().unwrap_or_default();
    let faces = figure.polygons.len() + groups.iter().map(|group| group.faces.len()).sum::<usize>();
    2 + 2 * figure.textures.as_ref().map_or(0, Vec::len)
        + 3 * figure.colours.as_ref().map_or(0, Vec::len)
        + 9 * figure.materials.len()
        + 4 * figure.points.len()
        + 3 * figure.normals.len()
        + 14 * figure.bones.len()
        + 2 * figure.uvs.as_ref().map_or(0, Vec::len)
        + 11 * faces
        + 2 * groups.len()
}

fn point(rng: &mut Rng) -> [i64; 3] {
    [(); 3].map(|()| number::short_float(rng))
}

/// Adds points with normals and texture coordinates up to a total: seven
/// numbers a point, two a texture coordinate.
fn fill_to(rng: &mut Rng, figure: &mut Figure, wanted: usize) {
    let room = wanted - total(figure);
    let odd = room % 2;
    let most = room / 7;
    let mut points = if rng.coin() { most } else { rng.below(most) };
    if points % 2 != odd {
        points = if points == 0 { 1 } else { points - 1 };
    }
    for _ in 0..points {
        figure.points.push(point(rng));
        figure.normals.push(point(rng));
    }
    let uvs = figure.uvs.get_or_insert_default();
    for _ in 0..(room - 7 * points) / 2 {
        uvs.push([number::short_float(rng), number::short_float(rng)]);
    }
}

/// A figure whose table takes exactly `wanted` numbers.
pub fn of_total(rng: &mut Rng, wanted: usize) -> Figure {
    let sizes = small_sizes(rng);
    let mut figure = plain(rng, sizes);
    fill_to(rng, &mut figure, wanted);
    figure
}

/// A sound figure that is large: the short lists at their most, many faces,
/// or a table filled to the last number.
pub fn full(rng: &mut Rng) -> Figure {
    let mut sizes = small_sizes(rng);
    match rng.below(3) {
        0 => {
            sizes.textures = limits::TEXTURES;
            sizes.colours = limits::COLOURS;
            sizes.materials = limits::MATERIALS;
            sizes.bones = limits::BONES;
            sizes.groups = limits::GROUPS;
            plain(rng, sizes)
        }
        1 => {
            sizes.polygons = 600 + rng.below(100);
            plain(rng, sizes)
        }
        _ => of_total(rng, limits::FIGURE_ROOM),
    }
}

/// Brings one list (or two) to its most, or past it by one or a few.
pub fn at_limits(rng: &mut Rng) -> Figure {
    let sizes = small_sizes(rng);
    let mut figure = plain(rng, sizes);
    let past = *rng.pick(&[0, 0, 1, 1, 1, 1, 2, 5]);
    let list = rng.below(9);
    grow(rng, &mut figure, sizes, list, past);
    let short_lists = [0, 1, 2, 5, 8];
    if rng.once_in(4) {
        let other = *rng.pick(&short_lists);
        grow(rng, &mut figure, sizes, other, 1);
    }
    figure
}

fn grow(rng: &mut Rng, figure: &mut Figure, sizes: Sizes, list: usize, past: usize) {
    match list {
        0 => extend(
            figure.textures.get_or_insert_default(),
            limits::TEXTURES + past,
            || [number::any_int(rng), number::any_int(rng)],
        ),
        1 => extend(
            figure.colours.get_or_insert_default(),
            limits::COLOURS + past,
            || point(rng),
        ),
        2 => extend(&mut figure.materials, limits::MATERIALS + past, || {
            material(rng, sizes)
        }),
        3 => {
            extend(&mut figure.points, limits::POINTS + past, || point(rng));
            // With as many normals, or without.
            if rng.coin() {
                figure.normals.resize(limits::POINTS, [0; 3]);
            }
        }
        4 => extend(&mut figure.normals, limits::NORMALS + past, || point(rng)),
        5 => {
            let count = limits::BONES + past;
            let mut last = figure.bones[0].clone();
            last.vertices = None;
            last.name = None;
            figure.bones.resize(count, last);
            for (bone, flags) in figure.bones.iter_mut().zip(tree(rng, count)) {
                (bone.has_child, bone.has_brother) = flags;
            }
        }
        6 => extend(
            figure.uvs.get_or_insert_default(),
            limits::UVS + past,
            || [number::short_float(rng), number::short_float(rng)],
        ),
        7 => grow_faces(rng, figure, sizes, limits::FACES + past),
        _ => extend(
            figure.groups.get_or_insert_default(),
            limits::GROUPS + past,
            || Group {
                name: None,
                faces: Vec::new(),
            },
        ),
    }
}

/// Faces up to a count, in `Polygons` or in a group.
fn grow_faces(rng: &mut Rng, figure: &mut Figure, sizes: Sizes, wanted: usize) {
    let groups = figure.groups.as_deref().unwrap_or_default();
    let in_groups: usize = groups.iter().map(|group| group.faces.len()).sum();
    let mut missing = wanted - figure.polygons.len() - in_groups;
    if let Some(group) = figure.groups.iter_mut().flatten().next() {
        let some = rng.below(missing);
        group.faces.extend((0..some).map(|_| face(rng, sizes)));
        missing -= some;
    }
    figure
        .polygons
        .extend((0..missing).map(|_| face(rng, sizes)));
}

fn extend<T>(list: &mut Vec<T>, count: usize, mut row: impl FnMut() -> T) {
    while list.len() < count {
        list.push(row());
    }
}
