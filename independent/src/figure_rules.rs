//! The rules a figure's lists must keep: refusals 8 to 13, and what the
//! lists say of parents and owners.

use crate::figure::{Bone, Face, Figure, Material};
use crate::limits;
use crate::refusal::Refusal;

/// The lowest of refusals 8 to 13, with the lowest row.
pub fn check(figure: &Figure) -> Result<(), Refusal> {
    row_counts(figure)?;
    if figure.normals.len() != figure.points.len() {
        return Err(Refusal::new(9, figure.normals.len()));
    }
    parents(&figure.bones)?;
    owners(&figure.bones, figure.points.len())?;
    let bad_material = |material| !material_is_right(figure, material);
    if let Some(row) = figure.materials.iter().position(bad_material) {
        return Err(Refusal::new(12, row));
    }
    let bad_face = |face| !face_is_right(figure, face);
    if let Some(row) = figure.faces.iter().position(bad_face) {
        return Err(Refusal::new(13, row));
    }
    Ok(())
}

fn row_counts(figure: &Figure) -> Result<(), Refusal> {
    let counts = [
        (figure.textures.len(), limits::TEXTURES),
        (figure.colours.len(), limits::COLOURS),
        (figure.materials.len(), limits::MATERIALS),
        (figure.points.len(), limits::POINTS),
        (figure.normals.len(), limits::NORMALS),
        (figure.bones.len(), limits::BONES),
        (figure.uvs.len(), limits::UVS),
        (figure.faces.len(), limits::FACES),
        (figure.groups.len(), limits::GROUPS),
    ];
    match counts.iter().position(|&(count, most)| count > most) {
        Some(list) => Err(Refusal::new(8, list)),
        None => Ok(()),
    }
}

/// The parent of each bone, -1 for a top bone; refusal 10 if the bones are
/// not one list.
///
/// A list that is still to come is remembered by its parent. Of a bone's two,
/// its children's list comes before the rest of its own list.
pub fn parents(bones: &[Bone]) -> Result<Vec<i64>, Refusal> {
    let mut parents = Vec::new();
    let mut lists_to_come = vec![-1];
    for (row, bone) in bones.iter().enumerate() {
        let Some(parent) = lists_to_come.pop() else {
            return Err(Refusal::new(10, row));
        };
        parents.push(parent);
        if bone.has_brother {
            lists_to_come.push(parent);
        }
        if bone.has_child {
            lists_to_come.push(row as i64);
        }
    }
    if lists_to_come.is_empty() {
        Ok(parents)
    } else {
        Err(Refusal::new(10, bones.len()))
    }
}

/// The bone of each point, -1 for none; refusal 11 if a bone names a point
/// that does not exist or that has been named before.
pub fn owners(bones: &[Bone], points: usize) -> Result<Vec<i64>, Refusal> {
    let mut owners = vec![-1; points];
    for (row, bone) in bones.iter().enumerate() {
        for &vertex in &bone.vertices {
            let owner = usize::try_from(vertex)
                .ok()
                .and_then(|vertex| owners.get_mut(vertex));
            match owner {
                Some(owner) if *owner == -1 => *owner = row as i64,
                _ => return Err(Refusal::new(11, row)),
            }
        }
    }
    Ok(owners)
}

fn is_row(number: i64, rows: usize) -> bool {
    0 <= number && number < rows as i64
}

fn material_is_right(figure: &Figure, material: &Material) -> bool {
    let texture = material.texture;
    let colour = material.colour;
    (texture == -1 || is_row(texture, figure.textures.len()))
        && (colour == -1 || is_row(colour, figure.colours.len()))
        && material
            .levels
            .iter()
            .all(|level| (0..=1_000_000).contains(level))
}

fn face_is_right(figure: &Figure, face: &Face) -> bool {
    let points = figure.points.len();
    let uvs = figure.uvs.len();
    is_row(face.material, figure.materials.len())
        && face.vertices.iter().all(|&vertex| is_row(vertex, points))
        && (face.uvs.iter().all(|&uv| uv == -1) || face.uvs.iter().all(|&uv| is_row(uv, uvs)))
}
