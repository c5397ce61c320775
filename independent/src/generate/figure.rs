//! Figures to write: their lists, sound ones, and their pieces.

use super::number;
use super::piece::{any_name, Piece, Writer};
use super::render::{any_style, render, Style};
use super::rng::Rng;

#[derive(Clone, Debug)]
pub struct Material {
    pub blend: usize,
    pub flags: [bool; 3],
    pub texture: i64,
    pub colour: i64,
    pub specular: i64,
    pub alpha: Option<i64>,
    pub shininess: Option<i64>,
}

#[derive(Clone, Debug)]
pub struct Bone {
    pub name: Option<Vec<u8>>,
    pub has_child: bool,
    pub has_brother: bool,
    pub axes: [[i64; 3]; 3],
    pub vertices: Option<Vec<i64>>,
}

#[derive(Clone, Debug)]
pub struct Face {
    pub material: i64,
    pub vertices: Vec<i64>,
    pub uvs: Vec<i64>,
}

#[derive(Clone, Debug)]
pub struct Group {
    pub name: Option<Vec<u8>>,
    pub faces: Vec<Face>,
}

/// A figure to write. Where a list is none, its chunk is left out.
#[derive(Clone, Debug)]
pub struct Figure {
    pub name: Option<Vec<u8>>,
    pub textures: Option<Vec<[i64; 2]>>,
    pub colours: Option<Vec<[i64; 3]>>,
    pub materials: Vec<Material>,
    pub points: Vec<[i64; 3]>,
    pub normals: Vec<[i64; 3]>,
    pub bones: Vec<Bone>,
    pub uvs: Option<Vec<[i64; 2]>>,
    pub polygons: Vec<Face>,
    pub groups: Option<Vec<Group>>,
    pub style: Style,
    pub varied: bool,
}

/// How many rows of each list a figure has.
#[derive(Clone, Copy, Debug)]
pub struct Sizes {
    pub textures: usize,
    pub colours: usize,
    pub materials: usize,
    pub points: usize,
    pub bones: usize,
    pub uvs: usize,
    pub polygons: usize,
    pub groups: usize,
}

pub fn small_sizes(rng: &mut Rng) -> Sizes {
    Sizes {
        textures: rng.below(3),
        colours: rng.below(3),
        materials: 1 + rng.below(3),
        points: 1 + rng.below(8),
        bones: 1 + rng.below(5),
        uvs: rng.below(6),
        polygons: rng.below(4),
        groups: rng.below(3),
    }
}

/// A sound figure: most are small, some fill the table.
pub fn sound(rng: &mut Rng) -> Figure {
    if rng.once_in(60) {
        return super::figure_limits::full(rng);
    }
    let mut sizes = small_sizes(rng);
    if rng.once_in(12) {
        sizes.bones = 1 + rng.below(30);
        sizes.points = 1 + rng.below(60);
        sizes.polygons = rng.below(30);
    }
    let style = any_style(rng);
    of_sizes(rng, sizes, style, true)
}

/// A sound figure of these sizes. If not `varied`, it is short to write.
pub fn of_sizes(rng: &mut Rng, sizes: Sizes, style: Style, varied: bool) -> Figure {
    let float = if varied {
        number::any_float
    } else {
        number::short_float
    };
    let mut triples = |rng: &mut Rng, count: usize| -> Vec<[i64; 3]> {
        (0..count).map(|_| [(); 3].map(|()| float(rng))).collect()
    };
    let colours = triples(rng, sizes.colours);
    let points = triples(rng, sizes.points);
    let normals = triples(rng, sizes.points);
    let bones = bones(rng, sizes, &mut triples);
    let mut figure = Figure {
        name: any_name(rng),
        textures: listed(rng, sizes.textures, |rng| {
            [number::any_int(rng), number::any_int(rng)]
        }),
        colours: (sizes.colours > 0 || rng.coin()).then_some(colours),
        materials: Vec::new(),
        points,
        normals,
        bones,
        uvs: listed(rng, sizes.uvs, |rng| [float(rng), float(rng)]),
        polygons: Vec::new(),
        groups: None,
        style,
        varied,
    };
    figure.materials = (0..sizes.materials).map(|_| material(rng, sizes)).collect();
    figure.polygons = (0..sizes.polygons).map(|_| face(rng, sizes)).collect();
    figure.groups = listed(rng, sizes.groups, |rng| Group {
        name: any_name(rng),
        faces: (0..rng.below(3)).map(|_| face(rng, sizes)).collect(),
    });
    figure
}

/// A list of so many rows; an empty one may be left out.
fn listed<T>(rng: &mut Rng, count: usize, mut row: impl FnMut(&mut Rng) -> T) -> Option<Vec<T>> {
    let stands = count > 0 || rng.coin();
    stands.then(|| (0..count).map(|_| row(rng)).collect())
}

/// -1 or a row of a list.
fn row_or_none(rng: &mut Rng, rows: usize) -> i64 {
    rng.between(-1, rows as i64 - 1)
}

pub fn material(rng: &mut Rng, sizes: Sizes) -> Material {
    Material {
        blend: rng.below(4),
        flags: [rng.coin(), rng.coin(), rng.coin()],
        texture: row_or_none(rng, sizes.textures),
        colour: row_or_none(rng, sizes.colours),
        specular: number::level(rng),
        alpha: rng.coin().then(|| number::level(rng)),
        shininess: rng.coin().then(|| number::level(rng)),
    }
}

/// A sound face of three or four corners.
pub fn face(rng: &mut Rng, sizes: Sizes) -> Face {
    let corners = 3 + rng.below(2);
    let textured = sizes.uvs > 0 && rng.coin();
    Face {
        material: rng.below(sizes.materials) as i64,
        vertices: (0..corners)
            .map(|_| rng.below(sizes.points) as i64)
            .collect(),
        uvs: (0..corners)
            .map(|_| {
                if textured {
                    rng.below(sizes.uvs) as i64
                } else {
                    -1
                }
            })
            .collect(),
    }
}

/// Bones that are one list, owning some of the points.
fn bones(
    rng: &mut Rng,
    sizes: Sizes,
    triples: &mut impl FnMut(&mut Rng, usize) -> Vec<[i64; 3]>,
) -> Vec<Bone> {
    let mut bones: Vec<Bone> = Vec::new();
    for (has_child, has_brother) in tree(rng, sizes.bones) {
        let axes = triples(rng, 3);
        bones.push(Bone {
            name: any_name(rng),
            has_child,
            has_brother,
            axes: [axes[0], axes[1], axes[2]],
            vertices: rng.once_in(4).then(Vec::new),
        });
    }
    let mut points: Vec<i64> = (0..sizes.points as i64).collect();
    if rng.coin() {
        rng.shuffle(&mut points);
    }
    for point in points {
        if !rng.once_in(8) {
            let bone = rng.below(bones.len());
            bones[bone].vertices.get_or_insert_default().push(point);
        }
    }
    bones
}

/// Flags (child, brother) of so many bones that are one list. The number of
/// lists still to come stays from 1 up to the rows that are left.
pub fn tree(rng: &mut Rng, count: usize) -> Vec<(bool, bool)> {
    let mut flags = Vec::new();
    let mut to_come = 1;
    for left in (0..count).rev() {
        let choice = loop {
            let (child, brother) = (rng.coin(), rng.coin());
            let then = to_come - 1 + usize::from(child) + usize::from(brother);
            let fits = if left == 0 {
                then == 0
            } else {
                (1..=left).contains(&then)
            };
            if fits {
                to_come = then;
                break (child, brother);
            }
        };
        flags.push(choice);
    }
    flags
}

impl Figure {
    pub fn text(&self, rng: &mut Rng) -> Vec<u8> {
        let pieces = self.pieces(rng);
        render(rng, b";BAC", &pieces, self.style)
    }

    pub fn pieces(&self, rng: &mut Rng) -> Vec<Piece> {
        let mut writer = Writer::new(rng, self.varied);
        let w = &mut writer;
        w.head("bacVersion", "6.0");
        w.open("Figure");
        w.name(&self.name);
        if let Some(textures) = &self.textures {
            write_list(w, "Textures", textures, |w, row| w.int_chunk("i2", row));
        }
        if let Some(colours) = &self.colours {
            write_list(w, "Colors", colours, |w, row| w.float_chunk("f3", row));
        }
        write_list(w, "Materials", &self.materials, write_material);
        w.open("Vertices");
        write_list(w, "coords", &self.points, |w, row| {
            w.float_chunk("pnt", row)
        });
        write_list(w, "normals", &self.normals, |w, row| {
            w.float_chunk("vct", row)
        });
        w.close();
        write_list(w, "Bones", &self.bones, write_bone);
        if let Some(uvs) = &self.uvs {
            write_list(w, "TextureCoords", uvs, |w, row| w.float_chunk("f2", row));
        }
        write_list(w, "Polygons", &self.polygons, write_face);
        if let Some(groups) = &self.groups {
            write_list(w, "DynamicPolygons", groups, |w, group| {
                w.open("group");
                w.name(&group.name);
                for face in &group.faces {
                    write_face(w, face);
                }
                w.close();
            });
        }
        w.close();
        writer.pieces
    }
}

fn write_list<T>(w: &mut Writer, keyword: &str, rows: &[T], row: impl Fn(&mut Writer, &T)) {
    w.open(keyword);
    for each in rows {
        row(w, each);
    }
    w.close();
}

const BLENDS: [&str; 4] = ["normal", "add", "sub", "half"];

fn write_material(w: &mut Writer, material: &Material) {
    w.open("material");
    for chunk in w.order(9) {
        match chunk {
            0 => w.word_chunk("blendMode", BLENDS[material.blend]),
            1 => w.flag_chunk("doubleFace", material.flags[0]),
            2 => w.flag_chunk("transparent", material.flags[1]),
            3 => w.flag_chunk("lighting", material.flags[2]),
            4 => w.int_chunk("textureIndex", &[material.texture]),
            5 => w.int_chunk("colorIndex", &[material.colour]),
            6 => w.float_chunk("specular", &[material.specular]),
            7 => material
                .alpha
                .iter()
                .for_each(|&level| w.float_chunk("alpha", &[level])),
            _ => material
                .shininess
                .iter()
                .for_each(|&level| w.float_chunk("shininess", &[level])),
        }
    }
    w.close();
}

fn write_bone(w: &mut Writer, bone: &Bone) {
    w.open("bone");
    for chunk in w.order(7) {
        match chunk {
            0 => w.name(&bone.name),
            1 => w.flag_chunk("hasChild", bone.has_child),
            2 => w.flag_chunk("hasBrother", bone.has_brother),
            3 => w.float_chunk("translate", &bone.axes[0]),
            4 => w.float_chunk("rotate", &bone.axes[1]),
            5 => w.float_chunk("handle", &bone.axes[2]),
            _ => bone
                .vertices
                .iter()
                .for_each(|row| w.int_chunk("vertexIndices", row)),
        }
    }
    w.close();
}

fn write_face(w: &mut Writer, face: &Face) {
    let keyword = if face.vertices.len() == 3 { "i3" } else { "i4" };
    w.open("face");
    w.int(face.material);
    w.int_chunk(keyword, &face.vertices);
    w.int_chunk(keyword, &face.uvs);
    w.close();
}
