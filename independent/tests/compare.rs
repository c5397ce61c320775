//! `compare` and `measure`, run on this reader's own programs and on wrong
//! ones.

use independent::compare::{first_line, Content, Tally, Texts};
use independent::generate::{text, Kind};
use independent::listing::{figure_listing, shown_listing};
use std::path::{Path, PathBuf};
use std::process::{Command, Output};

const FIGURE: &str = env!("CARGO_BIN_EXE_figure_listing");
const MOVEMENT: &str = env!("CARGO_BIN_EXE_movement_listing");
const PLAY: &str = env!("CARGO_BIN_EXE_play");
const CORNERS: &str = env!("CARGO_BIN_EXE_corners");
const PAIR: &str = env!("CARGO_BIN_EXE_pair");
const SHOWN: &str = env!("CARGO_BIN_EXE_shown");
const WHY: &str = env!("CARGO_BIN_EXE_why");

/// A directory of a test's own, to run in.
fn directory(name: &str) -> PathBuf {
    let path = Path::new(env!("CARGO_TARGET_TMPDIR")).join(name);
    std::fs::create_dir_all(&path).unwrap();
    path
}

/// A program that alters what one of this reader's own prints.
fn wrong(name: &str) -> String {
    let path = Path::new(env!("CARGO_MANIFEST_DIR")).join("tests/wrong");
    path.join(name).to_str().unwrap().into()
}

fn compare(test: &str, arguments: &[&str]) -> Output {
    let listing = match arguments {
        ["--play", _, kind, ..] if kind.ends_with("movements") => PLAY,
        ["--play", _, kind, ..] if kind.ends_with("pairs") => SHOWN,
        ["--pair", ..] => PAIR,
        ["--why", ..] => WHY,
        ["--play", ..] => CORNERS,
        [_, kind, ..] if kind.ends_with("movements") => MOVEMENT,
        _ => FIGURE,
    };
    Command::new(env!("CARGO_BIN_EXE_compare"))
        .args(arguments)
        .env("LISTING", listing)
        .current_dir(directory(test))
        .output()
        .unwrap()
}

fn printed(output: &Output) -> &str {
    std::str::from_utf8(&output.stdout).unwrap()
}

fn agrees(arguments: &[&str]) -> String {
    let output = compare("agrees", arguments);
    assert!(output.status.success(), "{}", printed(&output));
    assert_eq!(printed(&output).lines().count(), 1);
    printed(&output).to_string()
}

/// What is printed of a difference; the exit status is 1.
fn differs(test: &str, arguments: &[&str]) -> String {
    let output = compare(test, arguments);
    assert_eq!(output.status.code(), Some(1), "{}", printed(&output));
    printed(&output).to_string()
}

#[test]
fn this_reader_agrees_with_itself() {
    let line = agrees(&[FIGURE, "sound-figures", "1", "50"]);
    assert_eq!(line, "sound-figures, seed 1: 50 agreed, 50 accepted\n");
    let line = agrees(&[FIGURE, "damaged-figures", "1", "300"]);
    assert!(line.contains(": 300 agreed, "), "{line}");
    assert!(line.contains(" refused with 13"), "{line}");
    agrees(&[MOVEMENT, "sound-movements", "1", "30"]);
    let line = agrees(&[MOVEMENT, "damaged-movements", "1", "300"]);
    assert!(line.contains(" refused with 16"), "{line}");
    agrees(&[MOVEMENT, "damaged-movements", "1", "300"]);
}

#[test]
fn this_reader_agrees_on_the_samples() {
    let line = agrees(&[FIGURE, "samples-figures"]);
    let counts = "4 agreed, 2 accepted, 2 refused with 5";
    assert_eq!(line, format!("samples-figures: {counts}\n"));
    let line = agrees(&[MOVEMENT, "samples-movements"]);
    let counts = "6 agreed, 3 accepted, 3 refused with 5";
    assert_eq!(line, format!("samples-movements: {counts}\n"));
}

#[test]
fn this_player_agrees_with_itself() {
    let line = agrees(&["--play", PLAY, "samples-movements"]);
    // Ten channels of 11, 11 and 45 frames, and a line for each refusal.
    let counts = "6 agreed, 3 accepted, 3 refused with 5; played, 673 lines";
    assert_eq!(line, format!("samples-movements: {counts}\n"));
    let line = agrees(&["--play", PLAY, "sound-movements", "1", "20"]);
    assert!(
        line.contains(": 20 agreed, 20 accepted; played, "),
        "{line}"
    );
    let line = agrees(&["--play", PLAY, "damaged-movements", "1", "60"]);
    assert!(line.contains(" refused with 5"), "{line}");
}

#[test]
fn the_corners_agree_with_themselves() {
    let line = agrees(&["--play", CORNERS, "samples-figures"]);
    // Four corners of one face and of three, and a line for each refusal.
    let counts = "4 agreed, 2 accepted, 2 refused with 5; played, 18 lines";
    assert_eq!(line, format!("samples-figures: {counts}\n"));
    let line = agrees(&["--play", CORNERS, "sound-figures", "1", "20"]);
    assert!(
        line.contains(": 20 agreed, 20 accepted; played, "),
        "{line}"
    );
}

/// A player right at frame 0 that repeats it, one that says 21 throughout,
/// and one that rounds.
#[test]
fn a_wrong_player_differs() {
    let line_of = |name: &str| {
        let program = wrong(name);
        let report = differs(name, &["--play", &program, "samples-movements"]);
        let sample = "sample mended/sample01.tra\n";
        assert!(report.contains(sample), "{report}");
        let lines = report.lines().filter(|line| line.starts_with("found: "));
        lines.collect::<Vec<_>>().join("")
    };
    let at = |part: &str| format!("found:    {}\\n", part.replace(' ', "\\t"));
    assert_eq!(line_of("frame_0_repeated"), at("sample 0 9 1 0 1"));
    assert_eq!(line_of("refused_throughout"), at("refused 21 0"));
    assert_eq!(line_of("fraction_rounded"), at("sample 0 9 4 75134540 1"));
}

/// Pairs of every kind of face: shown and not, of a group and of none.
#[test]
fn the_faces_shown_agree_with_themselves() {
    let line = agrees(&["--play", SHOWN, "sound-pairs", "1", "60"]);
    assert!(
        line.contains(": 60 agreed, 60 accepted; played, "),
        "{line}"
    );
    for name in ["shown_throughout", "hidden_throughout"] {
        let program = wrong(name);
        let report = differs(name, &["--play", &program, "sound-pairs", "1", "60"]);
        assert!(report.contains("expected: shown\\t"), "{report}");
    }
}

/// Damaged pairs meet each of 18, 19 and 20.
#[test]
fn the_pairs_agree_with_themselves() {
    let line = agrees(&["--pair", PAIR, "sound-pairs", "1", "60"]);
    assert_eq!(line, "sound-pairs, seed 1: 60 agreed, 60 accepted\n");
    let pair = agrees(&["--pair", PAIR, "damaged-pairs", "1", "200"]);
    for number in [1, 2, 5, 18, 19, 20] {
        assert!(pair.contains(&format!(" refused with {number}")), "{pair}");
    }
    let shown = agrees(&["--play", SHOWN, "damaged-pairs", "1", "200"]);
    assert!(shown.starts_with(pair.trim_end()), "{shown}");
    let why = agrees(&["--why", WHY, "damaged-pairs", "1", "200"]);
    assert!(why.starts_with(pair.trim_end()), "{why}");
}

#[test]
fn wrong_pairs_differ() {
    let report_of = |name: &str, kind: &str| {
        let report = differs(name, &["--pair", &wrong(name), kind, "1", "100"]);
        assert!(report.contains(&format!("\n{kind}, seed 1, index ")));
        report
    };
    for name in ["names_missing", "name_cut_at_a_blank"] {
        let report = report_of(name, "sound-pairs");
        assert!(report.contains("expected: label\\t"), "{report}");
    }
    for (name, number) in [
        ("file_missing", None),
        ("file_0_throughout", None),
        ("other_bone_count", Some(18)),
        ("row_0_throughout", Some(19)),
        ("group_unknown_missed", Some(20)),
    ] {
        let report = report_of(name, "damaged-pairs");
        let number = number.map_or(String::new(), |number: u8| format!("{number}\\t"));
        let expected = format!("expected: refused\\t{number}");
        assert!(report.contains(&expected), "{report}");
        if name.starts_with("file") {
            differs(name, &["--play", &wrong(name), "damaged-pairs", "1", "100"]);
            differs(name, &["--why", &wrong(name), "damaged-pairs", "1", "100"]);
        }
    }
}

/// A comparison of many damaged pairs shows something of 18, 19 and 20 only
/// if each of them was met.
#[test]
fn many_damaged_pairs_must_meet_every_refusal_of_a_pair() {
    let unmet = |kind: &str, count: &str, refused: &[u8]| {
        let tally = Tally {
            refused: refused.iter().map(|&number| (number, 1)).collect(),
            ..Tally::default()
        };
        let texts = Texts::generated(kind, "1", count).unwrap();
        texts.unmet(Content::Pair, &tally)
    };
    let each = [18, 19, 20].map(|number| format!("no pair was refused with {number}"));
    assert_eq!(unmet("damaged-pairs", "100", &[5]), each);
    assert_eq!(unmet("damaged-pairs", "300", &[2, 18, 20]), each[1..2]);
    assert!(unmet("damaged-pairs", "100", &[18, 19, 20]).is_empty());
    assert!(unmet("damaged-pairs", "99", &[]).is_empty());
    assert!(unmet("sound-pairs", "100", &[]).is_empty());
    assert!(unmet("damaged-figures", "100", &[]).is_empty());
}

/// The numbers in the summary of a comparison of reasons: how many lines there
/// were, and how many of them were shown, corner, unset and line.
fn counts_of_reasons(line: &str) -> [u64; 5] {
    let (_, counts) = line.trim_end().split_once("; why, ").unwrap();
    let counts: Vec<(&str, &str)> = counts
        .split(", ")
        .map(|count| count.split_once(' ').unwrap())
        .collect();
    let words: Vec<&str> = counts.iter().map(|count| count.1).collect();
    assert_eq!(words, ["lines", "shown", "corner", "unset", "line"]);
    std::array::from_fn(|place| counts[place].0.parse().unwrap())
}

/// Every line of sound pairs has a reason, and as many are shown as `shown`
/// prints with 1. Of damaged pairs the refusals are lines too.
#[test]
fn the_reasons_agree_with_themselves() {
    let why = agrees(&["--why", WHY, "sound-pairs", "1", "100"]);
    let accepted = "sound-pairs, seed 1: 100 agreed, 100 accepted";
    assert!(why.starts_with(&format!("{accepted}; why, ")), "{why}");
    let [lines, shown, corner, unset, line] = counts_of_reasons(&why);
    assert_eq!(lines, shown + corner + unset + line);
    assert!([shown, corner, unset, line].iter().all(|&count| count > 0));
    let texts = (0..100).map(|index| text(Kind::SoundPairs, 1, index));
    let listing: String = texts.map(|text| shown_listing(&text)).collect();
    assert_eq!(lines, listing.lines().count() as u64);
    let ones = listing.lines().filter(|line| line.ends_with("\t1"));
    assert_eq!(shown, ones.count() as u64);

    let why = agrees(&["--why", WHY, "damaged-pairs", "1", "60"]);
    let [lines, reasons @ ..] = counts_of_reasons(&why);
    let (_, accepted) = why.split_once(" agreed, ").unwrap();
    let accepted: u64 = accepted.split(' ').next().unwrap().parse().unwrap();
    assert_eq!(lines, 60 - accepted + reasons.iter().sum::<u64>());
}

/// The reason in the line of a report that begins so: its word, and its number,
/// -1 for none.
fn reason_in<'a>(report: &'a str, start: &str) -> (&'a str, i64) {
    let line = report.lines().find(|line| line.starts_with(start)).unwrap();
    let fields: Vec<&str> = line.strip_suffix("\\n").unwrap().split("\\t").collect();
    assert!(fields[0].ends_with(" why"), "{report}");
    let number = fields.get(4).map_or(-1, |number| number.parse().unwrap());
    (fields[3], number)
}

/// Each differs first at a line of a reason that it gets wrong, and in its way.
#[test]
fn wrong_reasons_differ() {
    type Mistake = fn((&str, i64), (&str, i64)) -> bool;
    let mistakes: [(&str, Mistake); 6] = [
        ("corner_0", |right, found| {
            right.0 == "corner" && right.1 > 0 && found == ("corner", 0)
        }),
        ("last_corner", |right, found| {
            right.0 == "corner" && found.0 == "corner" && found.1 > right.1
        }),
        ("unset_for_line", |right, found| {
            right.0 == "line" && found == ("unset", -1)
        }),
        ("rows_from_1", |right, found| {
            right.0 == "line" && found == ("line", right.1 + 1)
        }),
        ("every_reason_shown", |right, found| {
            right.0 != "shown" && found == ("shown", -1)
        }),
        ("group_before_corners", |right, found| {
            right.0 == "corner" && ["unset", "line"].contains(&found.0)
        }),
    ];
    for (name, mistake) in mistakes {
        let report = differs(name, &["--why", &wrong(name), "sound-pairs", "1", "100"]);
        assert!(report.contains("\nsound-pairs, seed 1, index "), "{report}");
        let [right, found] = ["expected: ", "found: "].map(|start| reason_in(&report, start));
        assert!(mistake(right, found), "{report}");
    }
}

/// A comparison of the reasons of many sound pairs shows something of each only
/// if each was met.
#[test]
fn many_sound_pairs_must_meet_every_reason() {
    let unmet = |kind: &str, count: &str, content: Content, reasons: &[&'static str]| {
        let tally = Tally {
            refused: [18, 19, 20].map(|number| (number, 1)).into(),
            reasons: reasons.iter().map(|&reason| (reason, 1)).collect(),
            ..Tally::default()
        };
        let texts = Texts::generated(kind, "1", count).unwrap();
        texts.unmet(content, &tally)
    };
    let words = ["shown", "corner", "unset", "line"];
    let each = words.map(|word| format!("no line had the reason {word}"));
    let of_reasons = |reasons: &[&'static str]| unmet("sound-pairs", "100", Content::Why, reasons);
    assert_eq!(of_reasons(&[]), each);
    for (row, sentence) in each.iter().enumerate() {
        let others = [&words[..row], &words[row + 1..]].concat();
        assert_eq!(of_reasons(&others), [sentence.as_str()]);
    }
    assert!(of_reasons(&words).is_empty());
    assert!(unmet("sound-pairs", "99", Content::Why, &[]).is_empty());
    assert!(unmet("sound-pairs", "100", Content::Played, &[]).is_empty());
    assert!(unmet("damaged-pairs", "100", Content::Why, &[]).is_empty());
}

/// Each of these programs differs on movements of a kind, first at a line that
/// begins so.
fn differ_on_movements(programs: &[(&str, &str, &str)]) {
    for (name, kind, expected) in programs {
        let report = differs(name, &[&wrong(name), kind, "1", "300"]);
        assert!(report.contains(&format!("\n{kind}, seed 1, index ")));
        let expected = format!("expected: {expected}\\t");
        assert!(report.contains(&expected), "{report}");
    }
}

/// Readers that put the lines in order, that refuse a frame that falls, and that
/// give 16 for row 0 throughout.
#[test]
fn wrong_patterns_differ() {
    differ_on_movements(&[
        ("patterns_by_frame", "sound-movements", "pattern"),
        ("falling_frame_refused", "sound-movements", "movement"),
        ("pattern_row_0", "damaged-movements", "refused\\t16"),
    ]);
}

/// Readers that tell where a channel left out would begin, that refuse it, and
/// that leave out every channel at its default.
#[test]
fn wrong_channels_differ() {
    differ_on_movements(&[
        ("left_out_at_its_row", "sound-movements", "bone"),
        ("left_out_refused", "sound-movements", "movement"),
        ("default_left_out", "sound-movements", "movement"),
    ]);
    // The samples leave no channel out.
    agrees(&[&wrong("left_out_at_its_row"), "samples-movements"]);
    agrees(&[&wrong("left_out_refused"), "samples-movements"]);
}

/// A player that has 0 for a scale left out.
#[test]
fn a_wrong_default_differs() {
    let program = wrong("scale_left_out_0");
    let report = differs(
        "default",
        &["--play", &program, "sound-movements", "1", "60"],
    );
    let line_of = |word: &str| report.lines().find(|line| line.starts_with(word)).unwrap();
    assert!(
        line_of("expected: sample").ends_with("\\t100000000\\t1\\n"),
        "{report}"
    );
    assert!(
        line_of("found:    sample").ends_with("\\t0\\t1\\n"),
        "{report}"
    );
    agrees(&["--play", &program, "samples-movements"]);
}

/// A player that forgets, between keys, the twos that a sum and its gap share.
#[test]
fn twos_left_differ() {
    let program = wrong("twos_left");
    let report = differs("twos", &["--play", &program, "sound-movements", "1", "60"]);
    let fraction = |word: &str| {
        let line = report.lines().find(|line| line.starts_with(word)).unwrap();
        let line = line.strip_suffix("\\n").unwrap();
        let mut numbers = line.rsplit("\\t").map(|number| number.parse().unwrap());
        let denominator: i64 = numbers.next().unwrap();
        (numbers.next().unwrap(), denominator)
    };
    let (lowest, found): ((i64, i64), _) = (fraction("expected: "), fraction("found: "));
    let factor = found.1 / lowest.1;
    assert!(factor > 1 && factor.count_ones() == 1, "{report}");
    assert_eq!(found, (factor * lowest.0, factor * lowest.1));
    // Of 0 over 4 frames both are halved twice.
    let report = differs("twos", &["--play", &program, "samples-movements"]);
    let line = "\nfound:    sample\\t0\\t6\\t1\\t0\\t4\\n\n";
    assert!(report.contains(line), "{report}");
}

/// Corners without their owners.
#[test]
fn wrong_corners_differ() {
    let program = wrong("owner_missing");
    let report = differs("owner", &["--play", &program, "samples-figures"]);
    assert!(
        report.contains("sample mended/sample01.bac\nline 1\n"),
        "{report}"
    );
}

#[test]
fn a_dropped_line_differs() {
    let program = wrong("last_line_dropped");
    let report = differs("dropped", &[&program, "sound-figures", "9", "20"]);
    assert!(
        report.contains("sound-figures, seed 9, index 0\n"),
        "{report}"
    );
    assert!(report.contains("\nfound:    nothing more\n"), "{report}");
    let report = differs("dropped", &[&program, "samples-figures"]);
    assert!(report.contains("sample mended/sample01.bac\n"), "{report}");
}

/// The first text with the fault is told, and kept byte for byte.
#[test]
fn the_first_difference_is_told_and_its_text_kept() {
    let program = wrong("refusal_changed");
    let report = differs("changed", &[&program, "damaged-figures", "6", "400"]);
    let texts = (0..400).map(|index| text(Kind::DamagedFigures, 6, index));
    let (index, text) = texts
        .enumerate()
        .find(|(_, text)| figure_listing(text).starts_with("refused\t5\t"))
        .unwrap();
    assert!(index > 0);
    let expected = figure_listing(&text).trim_end().replace('\t', "\\t");
    let found = expected.replace("refused\\t5", "refused\\t6");
    let kept = format!("target/compare/damaged-figures-6-{index}.bac");
    let lines = [
        format!("{program} differs"),
        format!("damaged-figures, seed 6, index {index}"),
        "line 1".into(),
        format!("expected: {expected}\\n"),
        format!("found:    {found}\\n"),
        format!("text: {kept}"),
    ];
    assert_eq!(report.lines().collect::<Vec<_>>(), lines);
    assert_eq!(
        std::fs::read(directory("changed").join(kept)).unwrap(),
        text
    );
}

#[test]
fn a_program_that_fails_or_is_missing_differs() {
    let report = differs("fails", &[&wrong("status_of_3"), "sound-figures", "1", "3"]);
    assert!(report.contains("exit status: 3"), "{report}");
    let report = differs("fails", &["./missing", "sound-figures", "1", "3"]);
    assert!(report.contains("error: "), "{report}");
}

#[test]
fn a_comparison_of_nothing_is_an_error() {
    for arguments in [
        &[FIGURE, "sound-figures", "1", "0"][..],
        &[FIGURE, "sound-figures", "1"],
        &[FIGURE, "unknown", "1", "1"],
        &[FIGURE, "samples"],
        &["--play"],
        &["--pair"],
        &["--pair", PAIR, "sound-pairs", "1", "0"],
        &["--pair", PAIR, "sound-figures", "1", "1"],
        &["--pair", PAIR, "samples-figures"],
        &["--why"],
        &["--why", WHY, "sound-pairs", "1", "0"],
        &["--why", WHY, "sound-figures", "1", "1"],
        &["--why", WHY, "sound-movements", "1", "1"],
        &["--why", WHY, "samples-movements"],
        &[PAIR, "sound-pairs", "1", "1"],
        &[],
    ] {
        assert!(!compare("nothing", arguments).status.success());
    }
}

#[test]
fn the_first_line_that_differs() {
    let line = |text: &'static str| Some(text.as_bytes());
    assert_eq!(
        first_line(b"a\nb\n", b"a\nc\n"),
        (2, line("b\n"), line("c\n"))
    );
    assert_eq!(first_line(b"a\nb\n", b"a\n"), (2, line("b\n"), None));
    assert_eq!(first_line(b"a\n", b"a\nb"), (2, None, line("b")));
    assert_eq!(first_line(b"a\n", b"a"), (1, line("a\n"), line("a")));
}

#[test]
fn measure_prints_a_ratio() {
    let measure = |program: &str, kind: &str| {
        Command::new(env!("CARGO_BIN_EXE_measure"))
            .args([program, kind])
            .env("LISTING", FIGURE)
            .output()
            .unwrap()
    };
    let kinds = [
        (FIGURE, "figures"),
        (MOVEMENT, "movements"),
        (PAIR, "pairs"),
        (PLAY, "play"),
        (SHOWN, "shown"),
        (WHY, "why"),
    ];
    for (program, kind) in kinds {
        let output = measure(program, kind);
        assert!(output.status.success());
        assert!(printed(&output).contains(" ms, ratio "));
        assert_eq!(printed(&output).lines().count(), 1);
    }
    let dropped = measure(&wrong("last_line_dropped"), "figures");
    assert!(!dropped.status.success());
    assert!(!measure(FIGURE, "movements").status.success());
    assert!(!measure(MOVEMENT, "play").status.success());
    assert!(!measure(FIGURE, "corners").status.success());
    assert!(!measure(SHOWN, "pairs").status.success());
    assert!(!measure(PAIR, "shown").status.success());
    assert!(!measure(SHOWN, "why").status.success());
    assert!(!measure(WHY, "shown").status.success());
    assert!(!measure(FIGURE, "others").status.success());
}
