//! The figure: its lists, and the reader of its shape.

use crate::cursor::{Cursor, FreeChunk, Name};
use crate::figure_rules;
use crate::refusal::Refusal;
use crate::token;

#[derive(Clone, Debug, Default, PartialEq, Eq)]
pub struct Material {
    /// 0 to 3: normal, add, sub, half.
    pub blend: i64,
    /// doubleFace, transparent, lighting.
    pub flags: [bool; 3],
    pub texture: i64,
    pub colour: i64,
    /// specular, alpha, shininess.
    pub levels: [i64; 3],
}

#[derive(Clone, Debug, Default, PartialEq, Eq)]
pub struct Bone {
    pub name: Option<Name>,
    pub has_child: bool,
    pub has_brother: bool,
    pub translate: [i64; 3],
    pub rotate: [i64; 3],
    pub handle: [i64; 3],
    pub vertices: Vec<i64>,
}

/// A face; `vertices` and `uvs` are both three or both four long.
#[derive(Clone, Debug, PartialEq, Eq)]
pub struct Face {
    pub material: i64,
    pub vertices: Vec<i64>,
    pub uvs: Vec<i64>,
    /// The group it stands in, none for a face of `Polygons`.
    pub group: Option<usize>,
}

#[derive(Clone, Debug, Default, PartialEq, Eq)]
pub struct Figure {
    pub name: Option<Name>,
    pub textures: Vec<[i64; 2]>,
    pub colours: Vec<[i64; 3]>,
    pub materials: Vec<Material>,
    pub points: Vec<[i64; 3]>,
    pub normals: Vec<[i64; 3]>,
    pub bones: Vec<Bone>,
    pub uvs: Vec<[i64; 2]>,
    pub faces: Vec<Face>,
    pub groups: Vec<Option<Name>>,
}

impl Figure {
    /// How many numbers its table takes.
    pub fn total(&self) -> usize {
        2 + 2 * self.textures.len()
            + 3 * self.colours.len()
            + 9 * self.materials.len()
            + 3 * self.points.len()
            + 3 * self.normals.len()
            + 14 * self.bones.len()
            + self.points.len()
            + 2 * self.uvs.len()
            + 11 * self.faces.len()
            + 2 * self.groups.len()
    }
}

/// Reads a figure for a table of `room` numbers: refusals 1 to 13 and 17.
pub fn read(text: &[u8], room: usize) -> Result<Figure, Refusal> {
    let tokens = token::lex(text, b";BAC")?;
    let figure = shape(&mut Cursor::new(&tokens, text.len()))?;
    figure_rules::check(&figure)?;
    let total = figure.total();
    if total > room {
        return Err(Refusal::new(17, total));
    }
    Ok(figure)
}

fn shape(cursor: &mut Cursor) -> Result<Figure, Refusal> {
    let mut figure = Figure::default();
    cursor.head("bacVersion", "6.0")?;
    cursor.open_chunk("Figure")?;
    figure.name = cursor.optional_name()?;
    if cursor.open_optional("Textures") {
        figure.textures = cursor.rows("i2", 0, Cursor::ints)?;
    }
    if cursor.open_optional("Colors") {
        figure.colours = cursor.rows("f3", 0, Cursor::floats)?;
    }
    cursor.open_chunk("Materials")?;
    figure.materials = cursor.rows("material", 1, material)?;
    cursor.open_chunk("Vertices")?;
    cursor.open_chunk("coords")?;
    figure.points = cursor.rows("pnt", 1, Cursor::floats)?;
    cursor.open_chunk("normals")?;
    figure.normals = cursor.rows("vct", 0, Cursor::floats)?;
    cursor.close()?;
    cursor.open_chunk("Bones")?;
    figure.bones = cursor.rows("bone", 1, bone)?;
    if cursor.open_optional("TextureCoords") {
        figure.uvs = cursor.rows("f2", 0, Cursor::floats)?;
    }
    cursor.open_chunk("Polygons")?;
    figure.faces = cursor.rows("face", 0, |cursor| face(cursor, None))?;
    if cursor.at_open() {
        cursor.open_chunk("DynamicPolygons")?;
        groups(cursor, &mut figure)?;
    }
    cursor.close()?;
    cursor.end()?;
    Ok(figure)
}

const MATERIAL: [FreeChunk; 9] = [
    ("blendMode", true),
    ("doubleFace", true),
    ("transparent", true),
    ("lighting", true),
    ("textureIndex", true),
    ("colorIndex", true),
    ("specular", true),
    ("alpha", false),
    ("shininess", false),
];

fn material(cursor: &mut Cursor) -> Result<Material, Refusal> {
    let mut material = Material::default();
    cursor.free_order(&MATERIAL, |cursor, chunk| {
        match MATERIAL[chunk].0 {
            "blendMode" => {
                material.blend = cursor.one_of(&["normal", "add", "sub", "half"])? as i64;
                cursor.close()?;
            }
            "doubleFace" => material.flags[0] = cursor.flag_chunk()?,
            "transparent" => material.flags[1] = cursor.flag_chunk()?,
            "lighting" => material.flags[2] = cursor.flag_chunk()?,
            "textureIndex" => [material.texture] = cursor.ints()?,
            "colorIndex" => [material.colour] = cursor.ints()?,
            "specular" => [material.levels[0]] = cursor.floats()?,
            "alpha" => [material.levels[1]] = cursor.floats()?,
            _ => [material.levels[2]] = cursor.floats()?,
        }
        Ok(())
    })?;
    Ok(material)
}

const BONE: [FreeChunk; 7] = [
    ("name", false),
    ("hasChild", true),
    ("hasBrother", true),
    ("translate", true),
    ("rotate", true),
    ("handle", true),
    ("vertexIndices", false),
];

fn bone(cursor: &mut Cursor) -> Result<Bone, Refusal> {
    let mut bone = Bone::default();
    cursor.free_order(&BONE, |cursor, chunk| {
        match BONE[chunk].0 {
            "name" => bone.name = Some(cursor.name_chunk()?),
            "hasChild" => bone.has_child = cursor.flag_chunk()?,
            "hasBrother" => bone.has_brother = cursor.flag_chunk()?,
            "translate" => bone.translate = cursor.floats()?,
            "rotate" => bone.rotate = cursor.floats()?,
            "handle" => bone.handle = cursor.floats()?,
            _ => bone.vertices = cursor.ints_to_close()?,
        }
        Ok(())
    })?;
    Ok(bone)
}

/// A face: its material, its vertices and its texture coordinates, where the
/// second `i3` or `i4` is as the first.
fn face(cursor: &mut Cursor, group: Option<usize>) -> Result<Face, Refusal> {
    let material = cursor.int()?;
    let (vertices, uvs) = if cursor.open_optional("i3") {
        let vertices = cursor.ints::<3>()?.to_vec();
        cursor.open_chunk("i3")?;
        (vertices, cursor.ints::<3>()?.to_vec())
    } else {
        cursor.open_chunk("i4")?;
        let vertices = cursor.ints::<4>()?.to_vec();
        cursor.open_chunk("i4")?;
        (vertices, cursor.ints::<4>()?.to_vec())
    };
    cursor.close()?;
    Ok(Face {
        material,
        vertices,
        uvs,
        group,
    })
}

/// The rest of `DynamicPolygons`. Faces of groups follow those of `Polygons`.
fn groups(cursor: &mut Cursor, figure: &mut Figure) -> Result<(), Refusal> {
    let mut names = Vec::new();
    let faces = &mut figure.faces;
    cursor.rows("group", 0, |cursor| {
        let group = names.len();
        names.push(cursor.optional_name()?);
        faces.extend(cursor.rows("face", 0, |cursor| face(cursor, Some(group)))?);
        Ok(())
    })?;
    figure.groups = names;
    Ok(())
}
