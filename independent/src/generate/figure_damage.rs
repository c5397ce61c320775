//! Damage to a figure's lists: refusals 9 to 13.

use super::figure::{Bone, Face, Figure};
use super::rng::Rng;

/// Damages one list.
pub fn damage(rng: &mut Rng, figure: &mut Figure) {
    match rng.below(9) {
        0 => normals(rng, figure),
        1 | 2 => tree(rng, figure),
        3 | 4 => vertices(rng, figure),
        5 | 6 => material(rng, figure),
        _ => face(rng, figure),
    }
}

fn normals(rng: &mut Rng, figure: &mut Figure) {
    match rng.below(4) {
        0 => figure.normals.push([0; 3]),
        1 => figure.normals.clear(),
        2 => figure.points.push([0; 3]),
        _ => {
            figure.normals.pop();
        }
    }
}

/// Flips a flag, drops a bone or doubles one.
fn tree(rng: &mut Rng, figure: &mut Figure) {
    let row = rng.below(figure.bones.len());
    match rng.below(6) {
        0 | 1 => figure.bones[row].has_child ^= true,
        2 | 3 => figure.bones[row].has_brother ^= true,
        4 if figure.bones.len() > 1 => {
            figure.bones.remove(row);
        }
        _ => {
            let mut copy = figure.bones[row].clone();
            copy.vertices = None;
            figure.bones.insert(row, copy);
        }
    }
}

/// A number that is just not a row, or far from one.
fn no_row(rng: &mut Rng, rows: usize) -> i64 {
    let rows = rows as i64;
    *rng.pick(&[
        rows,
        rows,
        -1,
        -1,
        rows + 1,
        -2,
        i64::from(i32::MAX),
        i64::from(i32::MIN),
    ])
}

fn a_vertex(rng: &mut Rng, bone: &Bone) -> Option<i64> {
    let vertices = bone.vertices.as_deref().unwrap_or_default();
    (!vertices.is_empty()).then(|| *rng.pick(vertices))
}

/// A vertex that does not exist, or that is named already.
fn vertices(rng: &mut Rng, figure: &mut Figure) {
    let row = rng.below(figure.bones.len());
    let other = rng.below(figure.bones.len());
    let named = a_vertex(rng, &figure.bones[other]);
    let vertex = match named {
        Some(vertex) if rng.coin() => vertex,
        _ => no_row(rng, figure.points.len()),
    };
    let list = figure.bones[row].vertices.get_or_insert_default();
    let at = rng.below(list.len() + 1);
    list.insert(at, vertex);
}

fn material(rng: &mut Rng, figure: &mut Figure) {
    let textures = figure.textures.as_ref().map_or(0, Vec::len);
    let colours = figure.colours.as_ref().map_or(0, Vec::len);
    let row = rng.below(figure.materials.len());
    let material = &mut figure.materials[row];
    let level = *rng.pick(&[-1, 1_000_001, -1_000_000, 2_000_000, 9_999_999_999_999]);
    match rng.below(5) {
        0 => material.texture = no_row(rng, textures),
        1 => material.colour = no_row(rng, colours),
        2 => material.specular = level,
        3 => material.alpha = Some(level),
        _ => material.shininess = Some(level),
    }
}

/// All faces, those of groups too.
fn faces(figure: &mut Figure) -> Vec<&mut Face> {
    let in_groups = figure.groups.iter_mut().flatten();
    let in_groups = in_groups.flat_map(|group| &mut group.faces);
    figure.polygons.iter_mut().chain(in_groups).collect()
}

fn face(rng: &mut Rng, figure: &mut Figure) {
    let materials = figure.materials.len();
    let points = figure.points.len();
    let uvs = figure.uvs.as_ref().map_or(0, Vec::len);
    if faces(figure).is_empty() {
        figure.polygons.push(Face {
            material: 0,
            vertices: vec![0; 3],
            uvs: vec![-1; 3],
        });
    }
    let mut faces = faces(figure);
    let row = rng.below(faces.len());
    let face = &mut *faces[row];
    let corner = rng.below(face.vertices.len());
    match rng.below(5) {
        0 => face.material = no_row(rng, materials),
        1 | 2 => face.vertices[corner] = no_row(rng, points),
        3 => face.uvs[corner] = no_row(rng, uvs),
        // One corner with a texture coordinate and the others without.
        _ => face.uvs[corner] = if face.uvs[corner] == -1 { 0 } else { -1 },
    }
}
