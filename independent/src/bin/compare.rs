//! Compares what a program prints with what this reader and player say.
//!
//! `compare PROGRAM KIND SEED COUNT` runs the program on COUNT texts, one at
//! a time on its standard input; KIND is as for `generate`.
//! `compare PROGRAM KIND` does so with the papers' samples; KIND is
//! samples-figures or samples-movements.
//! With `--play` before PROGRAM it is every corner of a figure, every sample
//! of a movement, or whether each face of a pair is shown at each frame, in
//! place of the listing. With `--pair` it is the totals and the bones' names
//! of a pair, with `--why` the reason that each face of a pair has at each
//! frame.
//! With `--notes` before these words it runs the program on each generated text
//! and on the same with blanks and comments put directly after words, and
//! compares the two outputs: they are equal but for places, which move with
//! their words. This reader and player is held to the same, and the first output
//! to its. Texts that are refused with 1 to 4 are left out.
//! At the first difference it prints both lines, keeps the text in a file
//! under target/ and fails. It fails too if 100 damaged pairs or more do not
//! meet each of the refusals 18, 19 and 20, or if with `--why` 100 sound pairs
//! or more do not meet each of the four reasons. With `--notes` it fails too if a
//! sound text is left out, or if of 500 or more none is accepted, has several
//! gaps or is filled up, none of damaged ones is refused with each of 5, 6 and 7
//! (of pairs 18, 19 and 20 too) and with one of 8 to 17, no place of their
//! refusals moved, or no place of a name in the listings of sound ones.

use independent::compare::{compare, first_line, Content, Difference, Tally, Texts};
use independent::generate::Kind;
use independent::listing::REASONS;
use independent::notes::{self, NotedTexts};
use std::error::Error;
use std::io;
use std::path::{Path, PathBuf};
use std::process::ExitCode;

const USAGE: &str = "compare [--play | --pair | --why] PROGRAM KIND SEED COUNT | \
                     compare [--play] PROGRAM samples-KIND | \
                     compare --notes [--play | --pair | --why] PROGRAM KIND SEED COUNT";
const KEPT: &str = "target/compare";

fn main() -> Result<ExitCode, Box<dyn Error>> {
    let arguments: Vec<String> = std::env::args().skip(1).collect();
    let words: Vec<&str> = arguments.iter().map(String::as_str).collect();
    let (with_notes, words) = match &words[..] {
        ["--notes", words @ ..] => (true, words),
        words => (false, words),
    };
    let (content, words) = match words {
        ["--play", words @ ..] => (Content::Played, words),
        ["--pair", words @ ..] => (Content::Pair, words),
        ["--why", words @ ..] => (Content::Why, words),
        words => (Content::Listing, words),
    };
    if with_notes {
        return compare_notes(content, words);
    }
    let (program, kind, texts) = match *words {
        [program, kind, seed, count] => (program, kind, Texts::generated(kind, seed, count)?),
        [program, kind] => (program, kind, Texts::samples(kind)?),
        _ => return Err(USAGE.into()),
    };
    let printer = content.printer(texts.subject()).ok_or(USAGE)?;
    match compare(Path::new(program), &texts, printer) {
        Ok(tally) => {
            println!("{}: {}", title(kind, &texts), summary(&tally, content));
            Ok(all_met(&texts.unmet(content, &tally)))
        }
        Err(difference) => {
            println!("{program} differs");
            report(kind, &texts, &difference)?;
            Ok(ExitCode::FAILURE)
        }
    }
}

fn compare_notes(content: Content, words: &[&str]) -> Result<ExitCode, Box<dyn Error>> {
    let [program, kind, seed, count] = *words else {
        return Err(USAGE.into());
    };
    let texts = NotedTexts {
        kind: Kind::from_word(kind).ok_or_else(|| format!("no such kind: {kind}"))?,
        seed: seed.parse()?,
        count: count.parse()?,
    };
    if texts.count == 0 {
        return Err("no texts to compare".into());
    }
    let printer = content.printer(texts.kind.subject()).ok_or(USAGE)?;
    let title = format!("{kind} with notes, seed {seed}");
    match notes::compare(Path::new(program), &texts, printer) {
        Ok(tally) => {
            println!("{title}: {}", notes_summary(&tally));
            Ok(all_met(&texts.unmet(content, &tally)))
        }
        Err(difference) => {
            let unlike = &difference.unlike;
            let whose = if unlike.own { "this reader" } else { program };
            println!("{whose} differs");
            println!("{title}, index {}", difference.index);
            report_lines(&unlike.expected, &unlike.found);
            keep_notes(&format!("{kind}-{seed}"), &difference)?;
            Ok(ExitCode::FAILURE)
        }
    }
}

fn all_met(unmet: &[String]) -> ExitCode {
    for sentence in unmet {
        println!("{sentence}");
    }
    if unmet.is_empty() {
        ExitCode::SUCCESS
    } else {
        ExitCode::FAILURE
    }
}

fn title(kind: &str, texts: &Texts) -> String {
    match texts {
        Texts::Generated { seed, .. } => format!("{kind}, seed {seed}"),
        Texts::Samples { .. } => kind.to_string(),
    }
}

/// How many texts were accepted, and how many refused with each number.
fn answers(tally: &Tally) -> String {
    let mut answers = format!("{} agreed, {} accepted", tally.total(), tally.accepted);
    for (number, count) in &tally.refused {
        answers.push_str(&format!(", {count} refused with {number}"));
    }
    answers
}

fn notes_summary(tally: &notes::Tally) -> String {
    format!(
        "{}, {} left out; {} lines, {} names moved, {} refusals moved; \
         {} gaps, {} texts with several, {} filled",
        answers(&tally.answers),
        tally.left_out,
        tally.answers.lines,
        tally.names,
        tally.refusals,
        tally.gaps,
        tally.several,
        tally.filled
    )
}

fn summary(tally: &Tally, content: Content) -> String {
    let mut summary = answers(tally);
    match content {
        Content::Played => summary.push_str(&format!("; played, {} lines", tally.lines)),
        Content::Why => {
            summary.push_str(&format!("; why, {} lines{}", tally.lines, reasons(tally)))
        }
        Content::Listing | Content::Pair => {}
    }
    summary
}

/// How many lines had each reason.
fn reasons(tally: &Tally) -> String {
    let count = |reason| tally.reasons.get(reason).copied().unwrap_or(0);
    let counts = REASONS.map(|reason| format!(", {} {reason}", count(reason)));
    counts.concat()
}

fn report(kind: &str, texts: &Texts, difference: &Difference) -> io::Result<()> {
    let index = difference.index;
    println!("{}, index {index}", title(kind, texts));
    if let Texts::Samples { files, .. } = texts {
        println!("sample {}", files[index as usize].name);
    }
    report_lines(difference.expected.as_bytes(), &difference.found);
    println!("text: {}", keep(kind, texts, difference)?.display());
    Ok(())
}

/// The first line that differs, as it is to be and as it is.
fn report_lines(expected: &[u8], found: &io::Result<Vec<u8>>) {
    match found {
        Ok(found) => {
            let (number, expected, found) = first_line(expected, found);
            println!("line {number}");
            println!("expected: {}", shown(expected));
            println!("found:    {}", shown(found));
        }
        Err(error) => println!("error: {error}"),
    }
}

fn shown(line: Option<&[u8]>) -> String {
    line.map_or("nothing more".into(), |line| {
        line.escape_ascii().to_string()
    })
}

/// Writes the text to a file and gives its path.
fn keep(kind: &str, texts: &Texts, difference: &Difference) -> io::Result<PathBuf> {
    let ending = texts.subject().ending();
    let index = difference.index;
    let name = match texts {
        Texts::Generated { seed, .. } => format!("{kind}-{seed}-{index}.{ending}"),
        Texts::Samples { .. } => format!("{kind}-{index}.{ending}"),
    };
    write(&name, &difference.text)
}

/// Writes the text without notes and with them to files and tells their paths.
fn keep_notes(title: &str, difference: &notes::Difference) -> io::Result<()> {
    let text = &difference.text;
    let (ending, index) = (text.subject.ending(), difference.index);
    let plain = write(&format!("{title}-{index}.{ending}"), &text.plain)?;
    println!("text: {}", plain.display());
    let noted = write(&format!("{title}-{index}-notes.{ending}"), &text.noted)?;
    println!("with notes: {}", noted.display());
    Ok(())
}

fn write(name: &str, text: &[u8]) -> io::Result<PathBuf> {
    std::fs::create_dir_all(KEPT)?;
    let path = Path::new(KEPT).join(name);
    std::fs::write(&path, text)?;
    Ok(path)
}
