//! That comments make no difference: what a program, and this reader and
//! player, print of a text, and of the same with blanks and comments put
//! directly after words.

use crate::annotate::{annotate, Annotated};
use crate::compare::{self, each, output, Content, Indexed, Printer};
use crate::generate::rng::Rng;
use crate::generate::{text, Kind};
use crate::many;
use crate::subject::Subject;
use crate::token::lex;
use std::io;
use std::path::Path;

/// So many texts meet acceptance, the refusals of words and others, several
/// gaps, texts filled up, and places that move.
const MANY: u64 = 500;

/// What parts the gaps of a seed from its texts.
const GAPS: u64 = 0x6761_7073;

/// A text, and the same with notes.
#[derive(Clone, Debug, PartialEq, Eq)]
pub struct Noted {
    pub subject: Subject,
    pub plain: Vec<u8>,
    pub noted: Vec<u8>,
    /// The figure and the movement with notes, where they have some.
    pub files: [Option<Annotated>; 2],
}

/// Notes for a text that passes the refusals 1 to 4.
fn annotated(rng: &mut Rng, text: &[u8], mark: &[u8; 4]) -> Option<Annotated> {
    let words = lex(text, mark).ok()?;
    Some(annotate(rng, text, &words))
}

impl Noted {
    /// Notes for a text; of a pair by turns for the figure, the movement and
    /// both. None where one that is to have notes does not pass 1 to 4.
    pub fn new(subject: Subject, plain: Vec<u8>, rng: &mut Rng, turn: u64) -> Option<Noted> {
        let (files, noted) = match subject {
            Subject::Figure => {
                let figure = annotated(rng, &plain, b";BAC")?;
                let noted = figure.text.clone();
                ([Some(figure), None], noted)
            }
            Subject::Movement => {
                let movement = annotated(rng, &plain, b";TRA")?;
                let noted = movement.text.clone();
                ([None, Some(movement)], noted)
            }
            Subject::Pair => noted_pair(rng, &plain, turn)?,
        };
        Some(Noted {
            subject,
            plain,
            noted,
            files,
        })
    }

    /// What is to be printed of the text with notes where this is printed of
    /// the text without: the same but for places.
    pub fn moved(&self, printed: &[u8]) -> Vec<u8> {
        let lines = printed.split_inclusive(|&byte| byte == b'\n');
        let mut moved = Vec::with_capacity(printed.len());
        for line in lines {
            match self.moved_line(line) {
                Some(line) => moved.extend_from_slice(line.as_bytes()),
                None => moved.extend_from_slice(line),
            }
        }
        moved
    }

    /// A line that has a place, with its new place.
    fn moved_line(&self, line: &[u8]) -> Option<String> {
        let word = line.split(|&byte| byte == b'\t').next()?;
        if ![&b"refused"[..], b"name", b"bone", b"group"].contains(&word) {
            return None;
        }
        let line = std::str::from_utf8(line).ok()?.strip_suffix('\n')?;
        let mut fields: Vec<&str> = line.split('\t').collect();
        let (column, place) = match fields[0] {
            "refused" => (2, self.moved_refusal(&fields)?),
            _ => self.moved_name(&fields)?,
        };
        fields[column] = &place;
        Some(fields.join("\t") + "\n")
    }

    /// The new place of a refusal 5, 6 or 7.
    fn moved_refusal(&self, fields: &[&str]) -> Option<String> {
        let file = match (self.subject, fields) {
            (Subject::Figure, [_, "5" | "6" | "7", _]) => 0,
            (Subject::Movement, [_, "5" | "6" | "7", _]) => 1,
            (Subject::Pair, [_, "5" | "6" | "7", _, "0"]) => 0,
            (Subject::Pair, [_, "5" | "6" | "7", _, "1"]) => 1,
            _ => return None,
        };
        let file = self.files[file].as_ref()?;
        let place = fields[2].parse().ok().and_then(|place| file.place(place));
        Some(told(place))
    }

    /// The column and the new place of a name that is there.
    fn moved_name(&self, fields: &[&str]) -> Option<(usize, String)> {
        let (file, column) = match (self.subject, fields[0]) {
            (Subject::Figure, "bone") => (0, 13),
            (Subject::Figure, "name" | "group") => (0, 1),
            (Subject::Movement, "name" | "bone") => (1, 1),
            _ => return None,
        };
        let file = self.files[file].as_ref()?;
        let place = match fields.get(column)?.parse::<usize>() {
            Ok(0) => return None,
            // A name stands behind its quote, and so it does then.
            Ok(place) => file.place(place - 1).map(|place| place + 1),
            Err(_) => None,
        };
        Some((column, told(place)))
    }

    fn annotations(&self) -> impl Iterator<Item = &Annotated> {
        self.files.iter().flatten()
    }
}

/// A place, or that there is none where no word stands: no program prints that.
fn told(place: Option<usize>) -> String {
    place.map_or("no place".into(), |place| place.to_string())
}

/// The figure and the movement of a pair with notes, and the pair of them.
fn noted_pair(rng: &mut Rng, plain: &[u8], turn: u64) -> Option<([Option<Annotated>; 2], Vec<u8>)> {
    let (figure, movement) = many::split_first(plain).ok()?;
    let mut files = [None, None];
    let [of_figure, of_movement] = match turn % 3 {
        0 => [true, false],
        1 => [false, true],
        _ => [true, true],
    };
    if of_figure {
        files[0] = Some(annotated(rng, figure, b";BAC")?);
    }
    if of_movement {
        files[1] = Some(annotated(rng, movement, b";TRA")?);
    }
    let new_figure = files[0].as_ref().map_or(figure, |file| &file.text);
    let new_movement = files[1].as_ref().map_or(movement, |file| &file.text);
    let noted = many::pair(new_figure, new_movement);
    Some((files, noted))
}

/// The texts that a comparison goes over.
#[derive(Clone, Copy, Debug, PartialEq, Eq)]
pub struct NotedTexts {
    pub kind: Kind,
    pub seed: u64,
    pub count: u64,
}

impl NotedTexts {
    /// The text of an index with its notes; always the same.
    pub fn text(&self, index: u64) -> Option<Noted> {
        let plain = text(self.kind, self.seed, index);
        let mut rng = Rng::new(self.seed ^ GAPS, index);
        Noted::new(self.kind.subject(), plain, &mut rng, index)
    }

    /// What else is wrong, a sentence each: texts of which this reader and
    /// player prints something else, sound ones left out, and, where they are
    /// many, what none met. Only listings have places of names.
    pub fn unmet(&self, content: Content, tally: &Tally) -> Vec<String> {
        let mut unmet = Vec::new();
        let mut need = |met: bool, sentence: String| {
            if !met {
                unmet.push(sentence);
            }
        };
        let (strange, left_out) = (tally.strange, tally.left_out);
        need(
            strange == 0,
            format!("of {strange} texts this reader prints something else"),
        );
        need(
            left_out == 0 || !self.kind.is_sound(),
            format!("{left_out} sound texts were left out"),
        );
        if self.count < MANY {
            return unmet;
        }
        let refused = &tally.answers.refused;
        need(tally.answers.accepted > 0, "no text was accepted".into());
        for number in must_meet(self.kind) {
            need(
                refused.contains_key(number),
                format!("no text was refused with {number}"),
            );
        }
        if !self.kind.is_sound() {
            need(
                refused.range(8..=17).next().is_some(),
                "no text was refused with 8 to 17".into(),
            );
            need(tally.refusals > 0, "no refusal's place moved".into());
        } else if content == Content::Listing {
            need(tally.names > 0, "no name's place moved".into());
        }
        need(tally.several > 0, "no text had several gaps".into());
        need(tally.filled > 0, "no text was filled".into());
        unmet
    }
}

/// The refusals that many texts of a kind must meet.
fn must_meet(kind: Kind) -> &'static [u8] {
    match kind {
        Kind::DamagedFigures | Kind::DamagedMovements => &[5, 6, 7],
        Kind::DamagedPairs => &[5, 6, 7, 18, 19, 20],
        _ => &[],
    }
}

/// How many texts were left out, what was said of the others, of how many this
/// reader and player prints something else, in how many lines a name's place
/// moved, of how many refusals the place did, how many gaps there were, and how
/// many texts had several or were filled up.
#[derive(Clone, Debug, Default, PartialEq, Eq)]
pub struct Tally {
    pub answers: compare::Tally,
    pub left_out: u64,
    pub strange: u64,
    pub names: u64,
    pub refusals: u64,
    pub gaps: u64,
    pub several: u64,
    pub filled: u64,
}

impl Tally {
    fn count(&mut self, noted: &Noted, printed: &Printed) {
        let [plain, with_notes] = &printed.program;
        self.answers.count(&String::from_utf8_lossy(plain));
        self.strange += u64::from(printed.own != *plain);
        // Nothing else differs.
        for line in moved_lines(plain, with_notes) {
            if line.starts_with(b"refused\t") {
                self.refusals += 1;
            } else {
                self.names += 1;
            }
        }
        let gaps = || noted.annotations().map(|file| file.gaps);
        self.gaps += gaps().sum::<usize>() as u64;
        self.several += u64::from(gaps().any(|gaps| gaps > 1));
        self.filled += u64::from(noted.annotations().any(|file| file.filled));
    }

    fn add(&mut self, other: Tally) {
        self.answers.add(other.answers);
        self.left_out += other.left_out;
        self.strange += other.strange;
        self.names += other.names;
        self.refusals += other.refusals;
        self.gaps += other.gaps;
        self.several += other.several;
        self.filled += other.filled;
    }
}

/// The lines that are other lines with notes.
fn moved_lines<'a>(plain: &'a [u8], noted: &'a [u8]) -> impl Iterator<Item = &'a [u8]> {
    let [plain, noted] = [plain, noted].map(|text| text.split(|&byte| byte == b'\n'));
    let pairs = plain.zip(noted).filter(|(one, other)| one != other);
    pairs.map(|(line, _)| line)
}

/// A text of which something else is printed with notes than without.
#[derive(Debug)]
pub struct Difference {
    pub index: u64,
    pub text: Noted,
    pub unlike: Unlike,
}

impl Indexed for Difference {
    fn index(&self) -> u64 {
        self.index
    }
}

/// Runs the program on every text without notes and with them, up to the first
/// difference. The printer is this reader's and player's of the same.
pub fn compare(
    program: &Path,
    texts: &NotedTexts,
    printer: Printer,
) -> Result<Tally, Box<Difference>> {
    let work = |index, tally: &mut Tally| compare_one(program, texts, printer, index, tally);
    let mut tally = Tally::default();
    for part in each(texts.count, work)? {
        tally.add(part);
    }
    Ok(tally)
}

fn compare_one(
    program: &Path,
    texts: &NotedTexts,
    printer: Printer,
    index: u64,
    tally: &mut Tally,
) -> Result<(), Box<Difference>> {
    let Some(text) = texts.text(index) else {
        tally.left_out += 1;
        return Ok(());
    };
    match held(program, &text, printer) {
        Ok(printed) => {
            tally.count(&text, &printed);
            Ok(())
        }
        Err(unlike) => Err(Box::new(Difference {
            index,
            text,
            unlike,
        })),
    }
}

/// What this reader and player prints of a text without notes, and what the
/// program prints without and with them.
#[derive(Debug)]
pub struct Printed {
    pub own: Vec<u8>,
    pub program: [Vec<u8>; 2],
}

/// Whether it is this reader and player that differs, what is to be printed of
/// the text with notes, and what is.
#[derive(Debug)]
pub struct Unlike {
    pub own: bool,
    pub expected: Vec<u8>,
    pub found: io::Result<Vec<u8>>,
}

/// Holds this reader and player, and then the program, to the text with notes.
pub fn held(program: &Path, text: &Noted, printer: Printer) -> Result<Printed, Unlike> {
    let [own, _] = alike(true, text, |text| Ok(printer(text).into_bytes()))?;
    let program = alike(false, text, |text| output(program, text))?;
    Ok(Printed { own, program })
}

/// What is printed of the text without notes and with them.
fn alike(
    own: bool,
    text: &Noted,
    print: impl Fn(&[u8]) -> io::Result<Vec<u8>>,
) -> Result<[Vec<u8>; 2], Unlike> {
    let unlike = |expected, found| Unlike {
        own,
        expected,
        found,
    };
    let plain = print(&text.plain).map_err(|error| unlike(Vec::new(), Err(error)))?;
    let expected = text.moved(&plain);
    match print(&text.noted) {
        Ok(found) if found == expected => Ok([plain, found]),
        found => Err(unlike(expected, found)),
    }
}
