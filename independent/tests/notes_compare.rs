//! `compare --notes`, run on this reader's own programs and on wrong ones.

use independent::generate::Kind;
use independent::listing::{
    corner_listing, figure_listing, movement_listing, pair_listing, shown_listing,
};
use independent::notes::NotedTexts;
use std::path::{Path, PathBuf};
use std::process::{Command, Output};

const FIGURE: &str = env!("CARGO_BIN_EXE_figure_listing");
const MOVEMENT: &str = env!("CARGO_BIN_EXE_movement_listing");
const PLAY: &str = env!("CARGO_BIN_EXE_play");
const CORNERS: &str = env!("CARGO_BIN_EXE_corners");
const PAIR: &str = env!("CARGO_BIN_EXE_pair");
const SHOWN: &str = env!("CARGO_BIN_EXE_shown");
const WHY: &str = env!("CARGO_BIN_EXE_why");

/// A directory of a test's own, to run in.
fn directory(name: &str) -> PathBuf {
    let path = Path::new(env!("CARGO_TARGET_TMPDIR"))
        .join("notes")
        .join(name);
    std::fs::create_dir_all(&path).unwrap();
    path
}

/// A program that alters what one of this reader's own reads or prints.
fn wrong(name: &str) -> String {
    let path = Path::new(env!("CARGO_MANIFEST_DIR")).join("tests/wrong");
    path.join(name).to_str().unwrap().into()
}

/// The words that say what one of this reader's own prints.
fn how(program: &str) -> &'static [&'static str] {
    match program {
        PLAY | CORNERS | SHOWN => &["--play"],
        PAIR => &["--pair"],
        WHY => &["--why"],
        _ => &[],
    }
}

/// Runs `compare --notes` with a program over this reader's own.
fn notes(test: &str, listing: &str, arguments: &[&str]) -> Output {
    Command::new(env!("CARGO_BIN_EXE_compare"))
        .arg("--notes")
        .args(arguments)
        .env("LISTING", listing)
        .current_dir(directory(test))
        .output()
        .unwrap()
}

fn printed(output: &Output) -> &str {
    std::str::from_utf8(&output.stdout).unwrap()
}

fn agrees(program: &str, rest: &[&str]) -> String {
    let arguments = [how(program), &[program], rest].concat();
    let output = notes("agrees", FIGURE, &arguments);
    assert!(output.status.success(), "{}", printed(&output));
    assert_eq!(printed(&output).lines().count(), 1);
    printed(&output).to_string()
}

/// What is printed of a difference; the exit status is 1.
fn differs(listing: &str, name: &str, rest: &[&str]) -> String {
    let program = wrong(name);
    let arguments = [how(listing), &[&program], rest].concat();
    let output = notes(name, listing, &arguments);
    assert_eq!(output.status.code(), Some(1), "{}", printed(&output));
    printed(&output).to_string()
}

#[test]
fn this_reader_agrees_with_itself() {
    for (program, kind) in [
        (FIGURE, "sound-figures"),
        (CORNERS, "sound-figures"),
        (MOVEMENT, "sound-movements"),
        (PLAY, "sound-movements"),
        (PAIR, "sound-pairs"),
        (SHOWN, "sound-pairs"),
        (WHY, "sound-pairs"),
    ] {
        let line = agrees(program, &[kind, "1", "40"]);
        let start = format!("{kind} with notes, seed 1: 40 agreed, 40 accepted, 0 left out; ");
        assert!(line.starts_with(&start), "{line}");
    }
}

/// The number that a report has before these words.
fn number_before(line: &str, words: &str) -> u64 {
    let (start, _) = line.split_once(words).unwrap();
    start.rsplit(' ').next().unwrap().parse().unwrap()
}

/// Lines of names and refusals that moved are counted, each as what it is.
#[test]
fn places_that_moved_are_counted() {
    for (program, printer, kind, word, refusals) in [
        (
            FIGURE,
            figure_listing as Printer,
            Kind::SoundFigures,
            "sound-figures",
            false,
        ),
        (
            FIGURE,
            figure_listing,
            Kind::DamagedFigures,
            "damaged-figures",
            true,
        ),
        (
            CORNERS,
            corner_listing,
            Kind::SoundFigures,
            "sound-figures",
            false,
        ),
        (
            MOVEMENT,
            movement_listing,
            Kind::SoundMovements,
            "sound-movements",
            false,
        ),
        (
            PAIR,
            pair_listing,
            Kind::DamagedPairs,
            "damaged-pairs",
            true,
        ),
    ] {
        let line = agrees(program, &[word, "1", "60"]);
        let (seed, count) = (1, 60);
        let texts = NotedTexts { kind, seed, count };
        let mut moved = [0, 0];
        for text in (0..count).filter_map(|index| texts.text(index)) {
            let [plain, noted] = [text.plain, text.noted].map(|text| printer(&text));
            for (plain, noted) in plain.lines().zip(noted.lines()) {
                let refused = usize::from(plain.starts_with("refused"));
                moved[refused] += u64::from(plain != noted);
            }
        }
        let told = [" names moved, ", " refusals moved; "].map(|words| number_before(&line, words));
        assert_eq!(told, moved, "{line}");
        let listed = [FIGURE, MOVEMENT].contains(&program);
        assert_eq!(moved.map(|moved| moved > 0), [listed, refusals], "{line}");
    }
}

#[test]
fn many_damaged_texts_meet_the_refusals_of_words() {
    for (program, kind) in [(FIGURE, "damaged-figures"), (MOVEMENT, "damaged-movements")] {
        let line = agrees(program, &[kind, "1", "500"]);
        for number in [5, 6, 7, 8] {
            assert!(line.contains(&format!(" refused with {number},")), "{line}");
        }
        // Only a pair can be refused so, by the file without notes.
        for number in 1..=4 {
            assert!(
                !line.contains(&format!(" refused with {number},")),
                "{line}"
            );
        }
        let [agreed, left_out] =
            [" agreed, ", " left out; "].map(|words| number_before(&line, words));
        assert!(left_out > 0 && agreed + left_out == 500, "{line}");
    }
    let line = agrees(PAIR, &["damaged-pairs", "1", "500"]);
    for number in [1, 3, 5, 6, 7, 18, 19, 20] {
        assert!(line.contains(&format!(" refused with {number},")), "{line}");
    }
    for (program, kind) in [
        (CORNERS, "damaged-figures"),
        (PLAY, "damaged-movements"),
        (SHOWN, "damaged-pairs"),
        (WHY, "damaged-pairs"),
    ] {
        let line = agrees(program, &[kind, "1", "60"]);
        assert!(line.contains(" refused with 5,"), "{line}");
    }
}

/// What a report tells of a difference: the lines, and the kept texts.
struct Report {
    expected: String,
    found: String,
    line: usize,
    plain: Vec<u8>,
    noted: Vec<u8>,
}

fn report(test: &str, report: &str) -> Report {
    let told = |start: &str| {
        let line = report.lines().find_map(|line| line.strip_prefix(start));
        line.unwrap_or_else(|| panic!("{start}: {report}"))
            .to_string()
    };
    let kept = |start: &str| std::fs::read(directory(test).join(told(start))).unwrap();
    Report {
        expected: told("expected: "),
        found: told("found:    "),
        line: told("line ").parse().unwrap(),
        plain: kept("text: "),
        noted: kept("with notes: "),
    }
}

/// The line of a listing as a report has it.
fn line_of(listing: &str, number: usize) -> String {
    let line = listing.split_inclusive('\n').nth(number - 1).unwrap();
    line.escape_default().to_string()
}

type Printer = fn(&[u8]) -> String;

/// A wrong program over one of this reader's own, the kind and the seed that
/// show it, and how the line begins that is expected and that is found.
type Mistake<'a> = (&'a str, &'a str, Printer, &'a str, &'a str, [&'a str; 2]);

const MISTAKES: [Mistake; 10] = [
    (
        "seven_without_comments",
        FIGURE,
        figure_listing,
        "damaged-figures",
        "19",
        ["refused\\t7\\t", "refused\\t7\\t"],
    ),
    (
        "end_before_blanks",
        FIGURE,
        figure_listing,
        "damaged-figures",
        "2",
        ["refused\\t5\\t", "refused\\t5\\t"],
    ),
    (
        "comment_a_word",
        FIGURE,
        figure_listing,
        "sound-figures",
        "1",
        ["figure\\t", "refused\\t5\\t"],
    ),
    (
        "comments_one_short",
        FIGURE,
        figure_listing,
        "sound-figures",
        "1",
        ["bone\\t", "bone\\t"],
    ),
    (
        "most_bytes_refused",
        FIGURE,
        figure_listing,
        "sound-figures",
        "2",
        ["figure\\t", "refused\\t1\\t"],
    ),
    (
        "quote_in_a_comment",
        MOVEMENT,
        movement_listing,
        "sound-movements",
        "1",
        ["movement\\t", "refused\\t4\\t"],
    ),
    (
        "carriage_return_a_word",
        MOVEMENT,
        movement_listing,
        "sound-movements",
        "5",
        ["movement\\t", "refused\\t5\\t"],
    ),
    (
        "rows_by_lines",
        MOVEMENT,
        movement_listing,
        "damaged-movements",
        "3",
        ["refused\\t1", "refused\\t1"],
    ),
    (
        "names_lost_with_comments",
        PAIR,
        pair_listing,
        "sound-pairs",
        "1",
        ["label\\t", "label\\t"],
    ),
    (
        "hidden_in_long_pairs",
        SHOWN,
        shown_listing,
        "sound-pairs",
        "1",
        ["shown\\t", "shown\\t"],
    ),
];

/// Each differs first in its own way. What is expected of the text with notes is
/// what is right.
#[test]
fn wrong_programs_differ() {
    for (name, listing, printer, kind, seed, lines) in MISTAKES {
        let all = differs(listing, name, &[kind, seed, "100"]);
        let title = format!(
            "{} differs\n{kind} with notes, seed {seed}, index ",
            wrong(name)
        );
        assert!(all.starts_with(&title), "{all}");
        let told = report(name, &all);
        assert!(told.expected.starts_with(lines[0]), "{all}");
        assert!(told.found.starts_with(lines[1]), "{all}");
        assert_eq!(told.expected, line_of(&printer(&told.noted), told.line));
        assert!(told.noted.len() > told.plain.len());
    }
}

/// A place that no word has is never right.
#[test]
fn a_place_in_the_pair_differs() {
    let all = differs(PAIR, "place_in_the_pair", &["damaged-pairs", "3", "500"]);
    let told = report("place_in_the_pair", &all);
    assert_eq!(told.expected, "refused\\t5\\tno place\\t1\\n");
    assert!(told.found.starts_with("refused\\t5\\t"), "{all}");
}

/// The first line, the first text and both texts of it are told.
#[test]
fn the_first_difference_is_told_and_both_texts_kept() {
    let all = differs(FIGURE, "most_bytes_refused", &["sound-figures", "3", "100"]);
    let told = report("most_bytes_refused", &all);
    assert_eq!(told.noted.len(), 65_536);
    let index = all
        .split_once("index ")
        .unwrap()
        .1
        .split('\n')
        .next()
        .unwrap();
    let kept = format!("target/compare/sound-figures-3-{index}");
    let lines = [
        format!("{} differs", wrong("most_bytes_refused")),
        format!("sound-figures with notes, seed 3, index {index}"),
        "line 1".into(),
        format!("expected: {}", line_of(&figure_listing(&told.plain), 1)),
        "found:    refused\\t1\\t0\\n".into(),
        format!("text: {kept}.bac"),
        format!("with notes: {kept}-notes.bac"),
    ];
    assert_eq!(all.lines().collect::<Vec<_>>(), lines);
}

/// Who prints nothing, or something else of both texts, is alike on both.
#[test]
fn a_program_unlike_this_reader_fails() {
    let all = differs(FIGURE, "nothing", &["sound-figures", "1", "40"]);
    assert!(
        all.ends_with("\nof 40 texts this reader prints something else\n"),
        "{all}"
    );
    let all = differs(FIGURE, "refusal_changed", &["damaged-figures", "1", "40"]);
    assert!(
        all.ends_with(" texts this reader prints something else\n"),
        "{all}"
    );
    let all = differs(FIGURE, "nothing", &["damaged-figures", "1", "500"]);
    let unmet = [
        "no text was refused with 7",
        "no text was refused with 8 to 17",
        "no refusal's place moved\n",
    ];
    assert!(all.ends_with(&unmet.join("\n")), "{all}");
}

/// What another program prints is not what is meant, though it agrees on notes.
#[test]
fn another_program_than_the_one_meant_fails() {
    for (meant, program, kind) in [
        (CORNERS, FIGURE, "sound-figures"),
        (FIGURE, CORNERS, "sound-figures"),
        (PLAY, MOVEMENT, "sound-movements"),
        (MOVEMENT, PLAY, "sound-movements"),
        (PAIR, SHOWN, "sound-pairs"),
        (SHOWN, WHY, "sound-pairs"),
        (WHY, PAIR, "sound-pairs"),
    ] {
        let arguments = [how(meant), &[program, kind, "1", "40"]].concat();
        let output = notes("another", FIGURE, &arguments);
        let all = printed(&output);
        assert_eq!(output.status.code(), Some(1), "{all}");
        assert!(all.contains(": 40 agreed, 40 accepted, "), "{all}");
        let (_, told) = all.split_once('\n').unwrap();
        // Of a pair without faces nothing is shown, and nothing why.
        let count = if program == WHY { 36 } else { 40 };
        let sentence = format!("of {count} texts this reader prints something else\n");
        assert_eq!(told, sentence);
    }
}

#[test]
fn a_program_that_fails_or_is_missing_differs() {
    let all = differs(FIGURE, "status_of_3", &["sound-figures", "1", "3"]);
    assert!(all.contains("exit status: 3"), "{all}");
    let all = differs(FIGURE, "missing", &["sound-figures", "1", "3"]);
    assert!(all.contains("error: "), "{all}");
}

#[test]
fn a_comparison_of_nothing_is_an_error() {
    for arguments in [
        &[][..],
        &[FIGURE],
        &[FIGURE, "sound-figures", "1", "0"],
        &[FIGURE, "sound-figures", "1"],
        &[FIGURE, "samples-figures"],
        &[FIGURE, "samples-figures", "1", "1"],
        &[FIGURE, "unknown", "1", "1"],
        &["--play", CORNERS, "samples-figures"],
        &["--why", CORNERS, "sound-figures", "1", "1"],
        &[PAIR, "sound-pairs", "1", "1"],
    ] {
        assert!(!notes("nothing", FIGURE, arguments).status.success());
    }
    // A movement's program on figures.
    let output = notes("nothing", FIGURE, &[MOVEMENT, "sound-figures", "1", "3"]);
    assert_eq!(output.status.code(), Some(1), "{}", printed(&output));
}
