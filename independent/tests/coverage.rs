//! What the generated texts cover.

use independent::figure::{self, Figure};
use independent::generate::movement::full;
use independent::generate::rng::Rng;
use independent::generate::{text, Kind};
use independent::movement;
use independent::{figure_rules, limits};
use std::collections::BTreeSet;

const SEED: u64 = 1;
const COUNT: u64 = 1_000;

fn texts(kind: Kind) -> Vec<Vec<u8>> {
    (0..COUNT).map(|index| text(kind, SEED, index)).collect()
}

fn contains(text: &[u8], part: &[u8]) -> bool {
    text.windows(part.len()).any(|window| window == part)
}

/// Each of these parts stands in some text, and some text lacks it.
fn some_with_and_some_without(texts: &[Vec<u8>], parts: &[&str]) {
    for part in parts {
        let with = texts.iter().filter(|text| contains(text, part.as_bytes()));
        let with = with.count();
        assert!(0 < with && with < texts.len(), "{part:?} in {with} texts");
    }
}

#[test]
fn sound_texts_have_all_blanks_and_any_byte_in_comments() {
    for kind in [Kind::SoundFigures, Kind::SoundMovements] {
        let all = texts(kind).concat();
        let bytes: BTreeSet<u8> = all.iter().copied().collect();
        assert_eq!(bytes.len(), 256, "{kind:?}");
        for part in [
            "\t(", "\r(", "\n(", " (", "(\t", ")\r", ";\"", ";(", "(;", "\"(",
        ] {
            assert!(contains(&all, part.as_bytes()), "{kind:?} {part:?}");
        }
    }
}

#[test]
fn sound_figures_have_and_lack_every_optional_part() {
    let texts = texts(Kind::SoundFigures);
    let parts = [
        "Textures",
        "Colors",
        "TextureCoords",
        "DynamicPolygons",
        "name",
        "alpha",
        "shininess",
        "vertexIndices",
        "group",
        "face",
        "i3",
        "i4",
        "(blendMode normal)",
        "(blendMode add)",
        "(blendMode sub)",
        "(blendMode half)",
    ];
    some_with_and_some_without(&texts, &parts);
    let numbers = [
        "9999999.999999",
        "-9999999.999999",
        "2147483647",
        "-2147483648",
        " -0",
        "-0.0",
        " 000",
        "-0.000001",
    ];
    some_with_and_some_without(&texts, &numbers);
    // Empty lists that stand all the same.
    let lists = [
        "(Textures)",
        "(Colors)",
        "(TextureCoords)",
        "(Polygons)",
        "(DynamicPolygons)",
    ];
    some_with_and_some_without(&texts, &lists);
    some_with_and_some_without(&texts, &["(vertexIndices)", "(group)"]);
}

fn read(texts: &[Vec<u8>]) -> Vec<Figure> {
    let read = |text: &Vec<u8>| figure::read(text, limits::FIGURE_ROOM).unwrap();
    texts.iter().map(read).collect()
}

/// How many ancestors the deepest bone has.
fn depth(figure: &Figure) -> usize {
    let parents = figure_rules::parents(&figure.bones).unwrap();
    let mut depths: Vec<usize> = Vec::new();
    for parent in parents {
        depths.push(usize::try_from(parent).map_or(0, |parent| depths[parent] + 1));
    }
    depths.into_iter().max().unwrap()
}

#[test]
fn sound_figures_vary_in_names_trees_and_sizes() {
    let figures = read(&texts(Kind::SoundFigures));
    for wanted in [None, Some(0), Some(1), Some(255)] {
        let of_figure = figures.iter().map(|figure| figure.name);
        let mut of_bones = figures
            .iter()
            .flat_map(|figure| figure.bones.iter().map(|bone| bone.name));
        let mut of_groups = figures
            .iter()
            .flat_map(|figure| figure.groups.iter().copied());
        for names in [
            &mut of_figure.into_iter() as &mut dyn Iterator<Item = _>,
            &mut of_bones,
            &mut of_groups,
        ] {
            let mut lengths =
                names.map(|name: Option<independent::cursor::Name>| name.map(|name| name.length));
            assert!(lengths.any(|length| length == wanted), "{wanted:?}");
        }
    }
    assert!(figures.iter().any(|figure| depth(figure) >= 4));
    let top_bones = |figure: &Figure| {
        let parents = figure_rules::parents(&figure.bones).unwrap();
        parents.into_iter().filter(|&parent| parent == -1).count()
    };
    assert!(figures.iter().any(|figure| top_bones(figure) >= 3));
    let totals: Vec<usize> = figures.iter().map(Figure::total).collect();
    assert!(totals.contains(&limits::FIGURE_ROOM));
    assert!(totals.iter().filter(|&&total| total < 500).count() > 700);
}

#[test]
fn sound_movements_vary() {
    let texts = texts(Kind::SoundMovements);
    let parts = [
        "name",
        "DynamicPolygons",
        "(DynamicPolygons)",
        "kgf",
        "(bone)",
        "(bone(name \"",
        "2147483647",
        "9999999.999999",
    ];
    some_with_and_some_without(&texts, &parts);
    let read = |text: &Vec<u8>| movement::read(text, limits::MOVEMENT_ROOM).unwrap();
    let movements: Vec<movement::Movement> = texts.iter().map(read).collect();
    let frames: BTreeSet<i64> = movements
        .iter()
        .map(|movement| movement.total_frames)
        .collect();
    assert!(frames.contains(&1) && frames.contains(&limits::TOTAL_FRAMES));
    let most = |count: fn(&movement::Movement) -> usize| movements.iter().map(count).max().unwrap();
    assert_eq!(most(|movement| movement.bones.len()), limits::BONES);
    assert_eq!(most(|movement| movement.key_count()), limits::KEYS);
    assert_eq!(most(|movement| movement.patterns.len()), limits::PATTERNS);
}

/// Every list at its most fits a text, and fills the table.
#[test]
fn full_movements_fill_the_table() {
    for index in 0..20 {
        let mut rng = Rng::new(SEED, index);
        let text = full(&mut rng).text(&mut rng);
        assert!(text.len() <= limits::TEXT_BYTES, "{}", text.len());
        let read = movement::read(&text, limits::MOVEMENT_ROOM).unwrap();
        assert_eq!(read.total(), limits::MOVEMENT_ROOM);
    }
}

/// Each list past its most, and texts of 65,536 and 65,537 bytes.
#[test]
fn damaged_texts_pass_every_limit() {
    for (kind, lists) in [(Kind::DamagedFigures, 9), (Kind::DamagedMovements, 3)] {
        let mut named = BTreeSet::new();
        let mut lengths = BTreeSet::new();
        for index in 0..3_000 {
            let text = text(kind, SEED, index);
            lengths.insert(text.len());
            let refusal = kind.subject().refusal(&text);
            named.extend(
                refusal
                    .filter(|refusal| refusal.number == 8)
                    .map(|refusal| refusal.place),
            );
        }
        assert_eq!(named, (0..lists).collect(), "{kind:?}");
        assert!(
            lengths.contains(&65_536) && lengths.contains(&65_537),
            "{kind:?}"
        );
    }
}
