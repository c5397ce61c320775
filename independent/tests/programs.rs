//! The programs, run as they are.

mod common;

use common::{changed, figure_of, movement_of, movement_of_lines, FIGURE, MOVEMENT};
use independent::compare::Printer;
use independent::generate::{text, Kind};
use independent::listing::{
    corner_listing, figure_listing, movement_listing, pair_listing, sample_listing, shown_listing,
    why_listing,
};
use independent::many;
use std::io::Write;
use std::process::{Command, Output, Stdio};

fn run(program: &str, arguments: &[&str], input: &[u8]) -> Output {
    let mut child = Command::new(program)
        .args(arguments)
        .stdin(Stdio::piped())
        .stdout(Stdio::piped())
        .stderr(Stdio::piped())
        .spawn()
        .unwrap();
    child.stdin.take().unwrap().write_all(input).unwrap();
    child.wait_with_output().unwrap()
}

fn output(program: &str, arguments: &[&str], input: &[u8]) -> String {
    let output = run(program, arguments, input);
    assert!(output.status.success());
    String::from_utf8(output.stdout).unwrap()
}

#[test]
fn one_text_and_many() {
    let figure = env!("CARGO_BIN_EXE_figure_listing");
    let movement = env!("CARGO_BIN_EXE_movement_listing");
    let play = env!("CARGO_BIN_EXE_play");
    let corners = env!("CARGO_BIN_EXE_corners");
    let pair = env!("CARGO_BIN_EXE_pair");
    let shown = env!("CARGO_BIN_EXE_shown");
    let why = env!("CARGO_BIN_EXE_why");
    let programs: [(&str, Printer); 7] = [
        (figure, figure_listing),
        (movement, movement_listing),
        (play, sample_listing),
        (corners, corner_listing),
        (pair, pair_listing),
        (shown, shown_listing),
        (why, why_listing),
    ];
    let both = many::pair(figure_of(&[None], 2).as_bytes(), MOVEMENT.as_bytes());
    for (program, listing) in programs {
        let texts = [FIGURE.as_bytes(), MOVEMENT.as_bytes(), &both, b"", b"\xff"];
        let mut stream = Vec::new();
        let mut expected = String::new();
        for text in texts {
            assert_eq!(output(program, &[], text), listing(text));
            stream.extend(many::record(text));
            expected += &listing(text);
            expected += "--\n";
        }
        assert_eq!(output(program, &["--many"], &stream), expected);
    }
    assert!(!run(figure, &["--many"], b"12").status.success());
    assert!(!run(figure, &["--other"], b"").status.success());
}

#[test]
fn play_prints_every_sample() {
    let printed = output(env!("CARGO_BIN_EXE_play"), &[], MOVEMENT.as_bytes());
    let lines: Vec<&str> = printed.lines().collect();
    assert_eq!(lines.len(), 10 * 11);
    assert_eq!(lines[0], "sample\t0\t0\t0\t0\t1");
    assert_eq!(lines[9 * 11 + 4], "sample\t0\t9\t4\t225403619\t3");
    let bad = changed(MOVEMENT, "totalFrame 11", "totalFrame 0");
    assert_eq!(
        output(env!("CARGO_BIN_EXE_play"), &[], bad.as_bytes()),
        "refused\t14\t0\n"
    );
}

/// The figure of the paper's listing, and one with texture coordinates.
#[test]
fn corners_prints_every_corner() {
    let program = env!("CARGO_BIN_EXE_corners");
    let expected = [
        "corner\t0\t0\t0\t0\t0\t0\t0\n",
        "corner\t0\t1\t1500000\t0\t0\t0\t0\n",
        "corner\t0\t2\t0\t-1\t0\t-1\t0\n",
    ];
    assert_eq!(output(program, &[], FIGURE.as_bytes()), expected.concat());
    let text = changed(
        FIGURE,
        "(Polygons",
        "(TextureCoords(f2 0.5 1)(f2 0 -1))(Polygons",
    );
    let text = changed(&text, "(i3 0 1 2)(i3 -1 -1 -1)", "(i4 2 1 0 0)(i4 0 1 1 0)");
    let expected = [
        "corner\t0\t0\t0\t-1\t0\t-1\t0\t500000\t1000000\n",
        "corner\t0\t1\t1500000\t0\t0\t0\t0\t0\t-1000000\n",
        "corner\t0\t2\t0\t0\t0\t0\t0\t0\t-1000000\n",
        "corner\t0\t3\t0\t0\t0\t0\t0\t500000\t1000000\n",
    ];
    assert_eq!(output(program, &[], text.as_bytes()), expected.concat());
}

/// Two faces with bones at every corner, one of a group with two lines.
#[test]
fn shown_prints_every_face_and_frame() {
    let figure = changed(
        FIGURE,
        "(i3 0 1 2)(i3 -1 -1 -1))))",
        "(i3 0 1 1)(i3 -1 -1 -1)))(DynamicPolygons(group(face 0(i3 0 1 0)(i3 -1 -1 -1)))))",
    );
    let movement = changed(MOVEMENT, "totalFrame 11", "totalFrame 7");
    let movement = changed(&movement, "(kgf 4 1 false)", "(kgf 4 0 false)");
    let text = many::pair(figure.as_bytes(), movement.as_bytes());
    let lines = |face: i64, flags: [i64; 7]| -> String {
        let flags = flags.iter().enumerate();
        flags
            .map(|(frame, flag)| format!("shown\t{face}\t{frame}\t{flag}\n"))
            .collect()
    };
    let expected = lines(0, [1; 7]) + &lines(1, [1, 1, 1, 1, 0, 0, 0]);
    let program = env!("CARGO_BIN_EXE_shown");
    assert_eq!(output(program, &[], &text), expected);
    let text = many::pair(figure.as_bytes(), MOVEMENT.as_bytes());
    assert_eq!(output(program, &[], &text), "refused\t20\t1\t2\n");
    assert_eq!(output(program, &[], b"no record"), "refused\t2\t0\t0\n");
}

/// A face of `Polygons`, one of group 0, one of group 1 without a line, and one
/// with a corner without a bone.
#[test]
fn why_prints_every_face_and_frame() {
    let figure = changed(
        FIGURE,
        "(i3 0 1 2)(i3 -1 -1 -1))))",
        "(i3 0 1 1)(i3 -1 -1 -1)))(DynamicPolygons(group(face 0(i3 0 1 0)(i3 -1 -1 -1)))
        (group(face 0(i3 1 1 0)(i3 -1 -1 -1))(face 0(i3 0 1 2)(i3 -1 -1 -1)))))",
    );
    let movement = movement_of_lines(3, "0 0 true, 2 0 false, 1 0 true");
    let text = many::pair(figure.as_bytes(), movement.as_bytes());
    let lines = |face: i64, reasons: [&str; 3]| -> String {
        let reasons = reasons.iter().enumerate();
        reasons
            .map(|(frame, reason)| format!("why\t{face}\t{frame}\t{reason}\n"))
            .collect()
    };
    let expected = [
        lines(0, ["shown"; 3]),
        lines(1, ["shown", "shown", "line\t1"]),
        lines(2, ["unset"; 3]),
        lines(3, ["corner\t2"; 3]),
    ];
    let program = env!("CARGO_BIN_EXE_why");
    assert_eq!(output(program, &[], &text), expected.concat());
    let text = many::pair(FIGURE.as_bytes(), MOVEMENT.as_bytes());
    assert_eq!(output(program, &[], &text), "refused\t20\t0\t2\n");
    assert_eq!(output(program, &[], b"no record"), "refused\t2\t0\t0\n");
}

/// Three bones, one named by the movement, one by the figure, one by neither.
#[test]
fn pair_prints_totals_and_names() {
    let figure = figure_of(&[None, Some("arm, left"), None], 2);
    let lines = "(kgf 0 0 true)(kgf 4 1 false)";
    let movement = movement_of(&[Some("body"), Some(""), None], lines);
    let text = many::pair(figure.as_bytes(), movement.as_bytes());
    let expected = "pair\t89\t147\nlabel\t0\tbody\nlabel\t1\tarm, left\nlabel\t2\t\n";
    let program = env!("CARGO_BIN_EXE_pair");
    assert_eq!(output(program, &[], &text), expected);
    let text = many::pair(figure.as_bytes(), MOVEMENT.as_bytes());
    assert_eq!(output(program, &[], &text), "refused\t18\t1\t2\n");
    let text = many::pair(figure.as_bytes(), b"");
    assert_eq!(output(program, &[], &text), "refused\t2\t0\t1\n");
    assert_eq!(output(program, &[], b"no record"), "refused\t2\t0\t0\n");
}

#[test]
fn generate_writes_a_stream_files_and_a_summary() {
    let program = env!("CARGO_BIN_EXE_generate");
    let stream = run(program, &["5", "4", "damaged-figures", "-"], b"").stdout;
    let texts: Vec<Vec<u8>> = (0..4)
        .map(|index| text(Kind::DamagedFigures, 5, index))
        .collect();
    assert_eq!(many::split(&stream).unwrap(), texts);

    let directory = std::path::Path::new(env!("CARGO_TARGET_TMPDIR")).join("generated");
    let out = directory.to_str().unwrap();
    assert!(run(program, &["5", "4", "sound-movements", out], b"")
        .status
        .success());
    let written = std::fs::read(directory.join("00003.tra")).unwrap();
    assert_eq!(written, text(Kind::SoundMovements, 5, 3));

    assert!(run(program, &["5", "2", "damaged-pairs", out], b"")
        .status
        .success());
    let written = std::fs::read(directory.join("00001.pair")).unwrap();
    assert_eq!(written, text(Kind::DamagedPairs, 5, 1));

    let summary = output(program, &["--summary", "5", "4", "sound-movements"], b"");
    assert!(summary.ends_with("\naccepted\t4\n"), "{summary}");
    assert!(!run(program, &["5", "4", "unknown", "-"], b"")
        .status
        .success());
}
