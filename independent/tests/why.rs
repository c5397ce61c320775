//! Why a face is shown at a frame or is not: corners, groups without a line,
//! and the line that decides.

mod common;

use common::{changed, movement_of_lines, FIGURE};
use independent::figure::Figure;
use independent::generate::{text, Kind};
use independent::movement::Movement;
use independent::pair::{load, load_input};
use independent::play::{shown, why, Reason};
use Reason::{Corner, Line, Shown, Unset};

/// The paper's figure with these faces, each given by its vertices: those of
/// `Polygons`, and then those of each group. Points 0 and 1 have a bone, point
/// 2 has none.
fn figure_of_faces(polygons: &[&str], groups: &[&[&str]]) -> String {
    let chunks = |faces: &[&str]| -> String { faces.iter().map(|face| face_chunk(face)).collect() };
    let group = |faces: &&[&str]| format!("(group{})", chunks(faces));
    let groups: String = groups.iter().map(group).collect();
    changed(
        FIGURE,
        "(Polygons(face 0(i3 0 1 2)(i3 -1 -1 -1))))",
        &format!("(Polygons{})(DynamicPolygons{groups}))", chunks(polygons)),
    )
}

fn face_chunk(vertices: &str) -> String {
    let count = vertices.split(' ').count();
    let none = vec!["-1"; count].join(" ");
    format!("(face 0(i{count} {vertices})(i{count} {none}))")
}

/// The reasons of every face, at each of so many frames, of a pair with these
/// pattern lines.
fn reasons(figure: &str, total_frames: i64, lines: &str) -> Vec<Vec<Reason>> {
    let movement = movement_of_lines(total_frames, lines);
    let pair = load(figure.as_bytes(), movement.as_bytes(), 8_192, 11_779).unwrap();
    let over = |face: usize| {
        let at = |frame| why(&pair.figure, &pair.movement, face as i64, frame).unwrap();
        (0..total_frames).map(at).collect()
    };
    (0..pair.figure.faces.len()).map(over).collect()
}

const LINES: &str = "0 0 true, 4 0 false, 2 0 true";

/// A face of group 0 and one of group 1, of which no line speaks.
#[test]
fn the_line_that_decides_and_none() {
    let figure = figure_of_faces(&[], &[&["0 1 0"], &["1 1 0"]]);
    let found = reasons(&figure, 6, LINES);
    let first = [Shown, Shown, Shown, Shown, Line(1), Line(1)];
    assert_eq!(found, [first, [Unset; 6]]);
}

/// Corners 1 and 2 have no bone, whatever the lines say and without a group.
#[test]
fn the_first_corner_comes_before_the_group() {
    let figure = figure_of_faces(&["0 2 2"], &[&["0 2 2"], &["1 2 2"]]);
    assert_eq!(reasons(&figure, 6, LINES), [[Corner(1); 6]; 3]);
    assert_eq!(reasons(&figure, 6, ""), [[Corner(1); 6]; 3]);
}

#[test]
fn each_corner_as_the_only_one_without_a_bone() {
    let faces = ["2 0 1 0", "1 2 1 0", "0 0 2 1", "0 1 1 2"];
    let figure = figure_of_faces(&faces, &[&faces, &faces]);
    let each = [0, 1, 2, 3].map(|corner| [Corner(corner); 6]);
    assert_eq!(reasons(&figure, 6, LINES), [each; 3].concat());
    let faces = ["2 0 1", "1 2 1", "0 0 2"];
    let figure = figure_of_faces(&faces, &[&faces]);
    let each = [0, 1, 2].map(|corner| [Corner(corner); 6]);
    assert_eq!(reasons(&figure, 6, LINES), [each; 2].concat());
}

/// Every set of corners without a bone: the least of them is told.
#[test]
fn every_set_of_corners() {
    let mut faces = Vec::new();
    let mut expected = Vec::new();
    for set in 0..16_u32 {
        let vertices = [0, 1, 2, 3].map(|corner| if set >> corner & 1 == 1 { "2" } else { "1" });
        faces.push(vertices.join(" "));
        expected.push(match set {
            0 => [Shown; 2],
            _ => [Corner(set.trailing_zeros() as usize); 2],
        });
    }
    let faces: Vec<&str> = faces.iter().map(String::as_str).collect();
    let figure = figure_of_faces(&faces, &[]);
    assert_eq!(reasons(&figure, 2, ""), expected);
}

/// With all corners owned, no line matters.
#[test]
fn a_face_of_polygons_is_shown() {
    let figure = figure_of_faces(&["0 1 0", "1 0 1 1"], &[&[]]);
    for lines in ["", "0 0 false", LINES] {
        assert_eq!(reasons(&figure, 6, lines), [[Shown; 6]; 2]);
    }
}

/// The reasons of a face of group 0 with a bone at every corner.
fn of_lines(total_frames: i64, lines: &str) -> Vec<Reason> {
    let figure = figure_of_faces(&[], &[&["0 1 0"], &[]]);
    reasons(&figure, total_frames, lines).remove(0)
}

#[test]
fn the_later_of_two_lines_at_one_frame() {
    assert_eq!(
        of_lines(4, "0 0 true, 2 0 true, 2 0 false"),
        [Shown, Shown, Line(2), Line(2)]
    );
    assert_eq!(
        of_lines(4, "2 0 false, 2 0 true, 0 0 false"),
        [Line(2), Line(2), Shown, Shown]
    );
    // The later of two that say the same, and a greater frame before both.
    assert_eq!(
        of_lines(4, "3 0 false, 0 0 false, 0 0 false"),
        [Line(2), Line(2), Line(2), Line(0)]
    );
}

/// Rows count the lines of all groups.
#[test]
fn lines_after_the_frame_and_of_another_group() {
    assert_eq!(
        of_lines(5, "0 1 true, 3 0 false"),
        [Unset, Unset, Unset, Line(1), Line(1)]
    );
    assert_eq!(
        of_lines(5, "3 0 false, 0 1 true, 4 0 true, 0 1 false"),
        [Unset, Unset, Unset, Line(0), Shown]
    );
    assert_eq!(
        of_lines(3, "0 1 false, 2 1 false, 1 1 true, 0 0 false"),
        [Line(3); 3]
    );
}

/// An empty chunk of lines, and none.
#[test]
fn no_lines() {
    assert_eq!(of_lines(3, ""), [Unset; 3]);
    let figure = figure_of_faces(&["0 0 1"], &[&["0 1 0"]]);
    let movement = changed(&movement_of_lines(3, ""), "(DynamicPolygons)", "");
    let pair = load(figure.as_bytes(), movement.as_bytes(), 8_192, 11_779).unwrap();
    let of = |face| why(&pair.figure, &pair.movement, face, 2);
    assert_eq!([of(0), of(1), of(2)], [Some(Shown), Some(Unset), None]);
}

/// Faces and frames below 0, at their counts, and far beyond, for faces of
/// every reason.
#[test]
fn no_such_face_or_frame() {
    let figure = figure_of_faces(&["0 1 0", "0 2 0"], &[&["0 1 1", "2 2 2"], &["1 0 1"]]);
    let movement = movement_of_lines(6, LINES);
    let pair = load(figure.as_bytes(), movement.as_bytes(), 8_192, 11_779).unwrap();
    let at = |face, frame| why(&pair.figure, &pair.movement, face, frame);
    let last = [Shown, Corner(1), Line(1), Corner(0), Unset].map(Some);
    assert_eq!([0, 1, 2, 3, 4].map(|face| at(face, 5)), last);
    for face in [i64::MIN, -1, 5, 6, i64::MAX] {
        assert!((-1..=6).all(|frame| at(face, frame).is_none()), "{face}");
    }
    for frame in [i64::MIN, -1, 6, 7, i64::MAX] {
        assert!((-1..=5).all(|face| at(face, frame).is_none()), "{frame}");
    }
}

/// Group 0's reasons by playing frame after frame, and the lines of each in
/// writing order. A line is a frame, a group and a flag.
fn played(lines: &[(i64, i64, bool)], total_frames: i64) -> Vec<Reason> {
    let mut reason = Unset;
    let mut reasons = Vec::new();
    for frame in 0..total_frames {
        for (row, line) in lines.iter().enumerate() {
            if (line.0, line.1) == (frame, 0) {
                reason = if line.2 { Shown } else { Line(row) };
            }
        }
        reasons.push(reason);
    }
    reasons
}

/// Every list of three lines of two groups at three frames.
#[test]
fn every_list_of_three_lines() {
    let line = |number: i64| (number % 3, number / 3 % 2, number / 6 == 1);
    let mut taken = 0;
    for number in 0..12_i64.pow(3) {
        let lines = [number % 12, number / 12 % 12, number / 144].map(line);
        if lines.iter().all(|line| line.0 > 0) {
            continue;
        }
        let written = lines.map(|(frame, group, flag)| format!("{frame} {group} {flag}"));
        let found = of_lines(3, &written.join(", "));
        assert_eq!(found, played(&lines, 3), "{written:?}");
        taken += 1;
    }
    assert_eq!(taken, 12 * 12 * 12 - 8 * 8 * 8);
}

/// How many faces and frames of a pair are shown, hidden, and do not exist;
/// at each of them `why` agrees with `shown`.
fn agreeing(figure: &Figure, movement: &Movement) -> [usize; 3] {
    let mut counts = [0; 3];
    for face in -1..=figure.faces.len() as i64 {
        for frame in -1..=movement.total_frames {
            let says = shown(figure, movement, face, frame);
            let reason = why(figure, movement, face, frame);
            let yes = reason.map(|reason| reason == Shown);
            assert_eq!(yes, says, "face {face}, frame {frame}: {reason:?}");
            counts[says.map_or(2, |shown| usize::from(!shown))] += 1;
        }
    }
    counts
}

/// It says shown exactly when Shown says yes, and 21 when Shown says 21. Each
/// face and frame is tried, and those on both sides of them.
#[test]
fn why_agrees_with_shown() {
    let mut loaded = 0;
    let mut sums = [0; 3];
    for (kind, seed, count) in [(Kind::SoundPairs, 11, 400), (Kind::DamagedPairs, 12, 600)] {
        let texts = (0..count).map(|index| text(kind, seed, index));
        for text in texts {
            if let Ok(pair) = load_input(&text) {
                loaded += 1;
                let counts = agreeing(&pair.figure, &pair.movement);
                for (sum, count) in sums.iter_mut().zip(counts) {
                    *sum += count;
                }
            }
        }
    }
    assert!(loaded > 400, "{loaded}");
    assert!(sums.iter().all(|&sum| sum > 10_000), "{sums:?}");
}
