//! Generated texts: sound ones read back as they were made, damaged ones
//! meet every refusal.

use independent::generate::rng::Rng;
use independent::generate::{figure as made, movement as made_movement, text, Kind};
use independent::pair::name_bytes;
use independent::play::{owner, sample};
use independent::{figure, figure_rules, limits, movement};
use std::collections::BTreeMap;

const SEED: u64 = 1;

fn opt(name: &Option<Vec<u8>>) -> &[u8] {
    name.as_deref().unwrap_or_default()
}

/// Parents by 01's words: a bone, its children's list, the rest of the list.
fn list_of_bones(bones: &[made::Bone], row: usize, parent: i64, parents: &mut Vec<i64>) -> usize {
    parents.push(parent);
    let mut next = row + 1;
    if bones[row].has_child {
        next = list_of_bones(bones, next, row as i64, parents);
    }
    if bones[row].has_brother {
        next = list_of_bones(bones, next, parent, parents);
    }
    next
}

#[test]
fn sound_figures_read_back() {
    for index in 0..600 {
        let mut rng = Rng::new(SEED, index);
        let made = made::sound(&mut rng);
        let text = made.text(&mut rng);
        assert_eq!(
            text,
            independent::generate::text(Kind::SoundFigures, SEED, index)
        );
        let read = figure::read(&text, limits::FIGURE_ROOM).unwrap();
        let name = |name| name_bytes(&text, name);

        assert_eq!(
            (read.name.is_some(), name(read.name)),
            (made.name.is_some(), opt(&made.name))
        );
        assert_eq!(read.textures, made.textures.unwrap_or_default());
        assert_eq!(read.colours, made.colours.unwrap_or_default());
        assert_eq!(read.points, made.points);
        assert_eq!(read.normals, made.normals);
        assert_eq!(read.uvs, made.uvs.unwrap_or_default());
        assert_eq!(read.materials.len(), made.materials.len());
        for (read, made) in read.materials.iter().zip(&made.materials) {
            let levels = [Some(made.specular), made.alpha, made.shininess];
            assert_eq!((read.blend, read.flags), (made.blend as i64, made.flags));
            assert_eq!((read.texture, read.colour), (made.texture, made.colour));
            assert_eq!(read.levels, levels.map(Option::unwrap_or_default));
        }
        assert_eq!(read.bones.len(), made.bones.len());
        for (row, (bone, made)) in read.bones.iter().zip(&made.bones).enumerate() {
            assert_eq!(name(bone.name), opt(&made.name));
            assert_eq!(
                (bone.has_child, bone.has_brother),
                (made.has_child, made.has_brother)
            );
            assert_eq!([bone.translate, bone.rotate, bone.handle], made.axes);
            assert_eq!(bone.vertices, made.vertices.clone().unwrap_or_default());
            assert!(bone
                .vertices
                .iter()
                .all(|&point| owner(&read, point) == row as i64));
        }
        let mut parents = Vec::new();
        let end = list_of_bones(&made.bones, 0, -1, &mut parents);
        assert_eq!(end, made.bones.len());
        assert_eq!(figure_rules::parents(&read.bones).unwrap(), parents);

        let groups = made.groups.unwrap_or_default();
        assert_eq!(read.groups.len(), groups.len());
        let mut faces: Vec<(&made::Face, Option<usize>)> =
            made.polygons.iter().map(|face| (face, None)).collect();
        for (row, group) in groups.iter().enumerate() {
            assert_eq!(name(read.groups[row]), opt(&group.name));
            faces.extend(group.faces.iter().map(|face| (face, Some(row))));
        }
        assert_eq!(read.faces.len(), faces.len());
        for (read, (made, group)) in read.faces.iter().zip(faces) {
            assert_eq!((read.material, read.group), (made.material, group));
            assert_eq!((&read.vertices, &read.uvs), (&made.vertices, &made.uvs));
        }
    }
}

#[test]
fn sound_movements_read_back() {
    for index in 0..600 {
        let mut rng = Rng::new(SEED, index);
        let made = made_movement::sound(&mut rng);
        let text = made.text(&mut rng);
        assert_eq!(
            text,
            independent::generate::text(Kind::SoundMovements, SEED, index)
        );
        let read = movement::read(&text, limits::MOVEMENT_ROOM).unwrap();
        let name = |name| name_bytes(&text, name);

        assert_eq!(read.total_frames, made.total_frames);
        assert_eq!(name(read.name), opt(&made.name));
        assert_eq!(read.bones.len(), made.bones.len());
        for (bone, made) in read.bones.iter().zip(&made.bones) {
            assert_eq!(name(bone.name), opt(&made.name));
            for (keys, made) in bone.channels.iter().zip(&made.channels) {
                let keys: Vec<(i64, i64)> = keys.iter().map(|key| (key.frame, key.value)).collect();
                assert_eq!(&keys, made);
            }
        }
        let lines = read.patterns.iter();
        let lines: Vec<(i64, i64, bool)> = lines
            .map(|line| (line.frame, line.group, line.flag))
            .collect();
        assert_eq!(lines, made.patterns.unwrap_or_default());
    }
}

/// Samples of generated movements, checked by multiplying out.
#[test]
fn samples_lie_on_the_straight_line() {
    let mut between = 0;
    for index in 0..60 {
        let text = text(Kind::SoundMovements, SEED, index);
        let read = movement::read(&text, limits::MOVEMENT_ROOM).unwrap();
        if read.total_frames > 100 {
            continue;
        }
        for (bone, each) in read.bones.iter().enumerate() {
            for (channel, keys) in each.channels.iter().enumerate() {
                for pair in keys.windows(2) {
                    for frame in pair[0].frame..=pair[1].frame {
                        let at = sample(&read, bone as i64, channel as i64, frame).unwrap();
                        let step = i128::from(pair[1].frame - pair[0].frame);
                        let rise = i128::from(pair[1].value - pair[0].value);
                        let exact = i128::from(pair[0].value) * step
                            + rise * i128::from(frame - pair[0].frame);
                        assert_eq!(
                            i128::from(at.numerator) * step,
                            exact * i128::from(at.denominator)
                        );
                        assert!(at.denominator > 0);
                        let divides = |d: i64| at.numerator % d == 0 && at.denominator % d == 0;
                        assert!(!(2..=at.denominator).any(divides));
                        between += 1;
                    }
                }
            }
        }
    }
    assert!(between > 1_000, "{between}");
}

/// How often each refusal number occurs; 0 stands for accepted.
fn counts(kind: Kind) -> BTreeMap<u8, usize> {
    let mut counts = BTreeMap::new();
    for index in 0..3_000 {
        let text = text(kind, SEED, index);
        let refusal = kind.subject().refusal(&text);
        *counts
            .entry(refusal.map_or(0, |refusal| refusal.number))
            .or_default() += 1;
    }
    counts
}

#[test]
fn damaged_figures_meet_every_refusal() {
    let counts = counts(Kind::DamagedFigures);
    let numbers: Vec<u8> = counts.keys().copied().collect();
    let expected: Vec<u8> = (0..=13).chain([17]).collect();
    assert_eq!(numbers, expected);
    assert!(counts.values().all(|&count| count >= 10), "{counts:?}");
}

/// 17 cannot occur: the room is the greatest total there is.
#[test]
fn damaged_movements_meet_every_refusal() {
    let counts = counts(Kind::DamagedMovements);
    let numbers: Vec<u8> = counts.keys().copied().collect();
    let expected: Vec<u8> = (0..=8).chain(14..=16).collect();
    assert_eq!(numbers, expected);
    assert!(counts.values().all(|&count| count >= 10), "{counts:?}");
}
