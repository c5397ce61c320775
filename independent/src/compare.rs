//! What another program prints of texts, compared with what this reader and
//! player say of them.

use crate::generate::{text, Kind};
use crate::listing::{
    corner_listing, figure_listing, movement_listing, pair_listing, sample_listing, shown_listing,
    why_listing, REASONS,
};
use crate::subject::Subject;
use std::collections::BTreeMap;
use std::error::Error;
use std::io::{self, ErrorKind, Write};
use std::path::Path;
use std::process::{Command, Stdio};
use std::sync::atomic::{AtomicBool, AtomicU64, Ordering};
use std::thread;

/// How many programs run at a time.
const THREADS: usize = 2;

/// So many damaged pairs meet every refusal of a pair, and so many sound ones
/// every reason.
const MANY: u64 = 100;

/// What is printed of a text.
#[derive(Clone, Copy, Debug, PartialEq, Eq)]
pub enum Content {
    /// The rows of its table.
    Listing,
    /// Every corner of a figure, every sample of a movement, or whether each
    /// face of a pair is shown at each frame.
    Played,
    /// The totals and the bones' names of a pair.
    Pair,
    /// That each face of a pair is shown at each frame, or what hides it.
    Why,
}

/// What prints a listing of a text.
pub type Printer = fn(&[u8]) -> String;

impl Content {
    /// What prints this of such texts, if it is something they have.
    pub fn printer(self, subject: Subject) -> Option<Printer> {
        match (subject, self) {
            (Subject::Figure, Content::Listing) => Some(figure_listing),
            (Subject::Figure, Content::Played) => Some(corner_listing),
            (Subject::Movement, Content::Listing) => Some(movement_listing),
            (Subject::Movement, Content::Played) => Some(sample_listing),
            (Subject::Pair, Content::Pair) => Some(pair_listing),
            (Subject::Pair, Content::Played) => Some(shown_listing),
            (Subject::Pair, Content::Why) => Some(why_listing),
            _ => None,
        }
    }
}

/// The texts that a comparison goes over.
pub enum Texts {
    Generated {
        kind: Kind,
        seed: u64,
        count: u64,
    },
    Samples {
        subject: Subject,
        files: Vec<Sample>,
    },
}

pub struct Sample {
    pub name: String,
    pub text: Vec<u8>,
}

impl Texts {
    /// The texts of a kind, a seed and a count; there must be one at least.
    pub fn generated(kind: &str, seed: &str, count: &str) -> Result<Texts, Box<dyn Error>> {
        let (seed, count) = (seed.parse()?, count.parse()?);
        if count == 0 {
            return Err("no texts to compare".into());
        }
        let kind = Kind::from_word(kind).ok_or_else(|| format!("no such kind: {kind}"))?;
        Ok(Texts::Generated { kind, seed, count })
    }

    /// The papers' samples of a kind, as printed and mended.
    pub fn samples(kind: &str) -> Result<Texts, Box<dyn Error>> {
        let subject = match kind {
            "samples-figures" => Subject::Figure,
            "samples-movements" => Subject::Movement,
            _ => return Err(format!("no such kind: {kind}").into()),
        };
        let directory = Path::new(env!("CARGO_MANIFEST_DIR")).join("samples");
        let mut files = Vec::new();
        for part in ["", "mended/"] {
            for entry in std::fs::read_dir(directory.join(part))? {
                let entry = entry?;
                let name = format!("{part}{}", entry.file_name().to_string_lossy());
                if name.ends_with(&format!(".{}", subject.ending())) {
                    let text = std::fs::read(entry.path())?;
                    files.push(Sample { name, text });
                }
            }
        }
        if files.is_empty() {
            return Err("no texts to compare".into());
        }
        files.sort_by(|one, other| one.name.cmp(&other.name));
        Ok(Texts::Samples { subject, files })
    }

    pub fn count(&self) -> u64 {
        match self {
            Texts::Generated { count, .. } => *count,
            Texts::Samples { files, .. } => files.len() as u64,
        }
    }

    pub fn subject(&self) -> Subject {
        match self {
            Texts::Generated { kind, .. } => kind.subject(),
            Texts::Samples { subject, .. } => *subject,
        }
    }

    pub fn text(&self, index: u64) -> Vec<u8> {
        match self {
            Texts::Generated { kind, seed, .. } => text(*kind, *seed, index),
            Texts::Samples { files, .. } => files[index as usize].text.clone(),
        }
    }

    /// What none of these met, a sentence each: of damaged pairs the refusals
    /// of a pair, of sound ones the reasons where they are asked for. Only of
    /// many pairs is it certain that they meet all.
    pub fn unmet(&self, content: Content, tally: &Tally) -> Vec<String> {
        let kind = match self {
            Texts::Generated {
                kind,
                count: MANY..,
                ..
            } => kind,
            _ => return Vec::new(),
        };
        match (kind, content) {
            (Kind::DamagedPairs, _) => (18..=20)
                .filter(|number| !tally.refused.contains_key(number))
                .map(|number| format!("no pair was refused with {number}"))
                .collect(),
            (Kind::SoundPairs, Content::Why) => REASONS
                .iter()
                .filter(|reason| !tally.reasons.contains_key(*reason))
                .map(|reason| format!("no line had the reason {reason}"))
                .collect(),
            _ => Vec::new(),
        }
    }
}

/// What a program prints of the text on its standard input. A program may
/// stop reading before the text ends.
pub fn output(program: &Path, text: &[u8]) -> io::Result<Vec<u8>> {
    let mut child = Command::new(program)
        .stdin(Stdio::piped())
        .stdout(Stdio::piped())
        .spawn()?;
    let mut stdin = child.stdin.take();
    let output = thread::scope(|scope| {
        let writer = scope.spawn(move || match stdin.take() {
            Some(mut stdin) => stdin.write_all(text),
            None => Ok(()),
        });
        let output = child.wait_with_output()?;
        match writer.join() {
            Ok(Err(error)) if error.kind() != ErrorKind::BrokenPipe => Err(error),
            _ => Ok(output),
        }
    })?;
    if !output.status.success() {
        let status = output.status;
        return Err(io::Error::other(format!("the program failed: {status}")));
    }
    Ok(output.stdout)
}

/// How many texts were accepted, how many refused with each number, how many
/// lines were compared, and how many of them had each reason.
#[derive(Clone, Debug, Default, PartialEq, Eq)]
pub struct Tally {
    pub accepted: u64,
    pub refused: BTreeMap<u8, u64>,
    pub lines: u64,
    pub reasons: BTreeMap<&'static str, u64>,
}

impl Tally {
    /// Counts what is printed of one text.
    pub fn count(&mut self, listing: &str) {
        for line in listing.lines() {
            self.lines += 1;
            if let Some(reason) = reason(line) {
                *self.reasons.entry(reason).or_default() += 1;
            }
        }
        let mut words = listing.split(['\t', '\n']);
        let refused = words.next() == Some("refused");
        match words.next().and_then(|word| word.parse().ok()) {
            Some(number) if refused => *self.refused.entry(number).or_default() += 1,
            _ => self.accepted += 1,
        }
    }

    pub fn add(&mut self, other: Tally) {
        self.accepted += other.accepted;
        self.lines += other.lines;
        for (number, count) in other.refused {
            *self.refused.entry(number).or_default() += count;
        }
        for (reason, count) in other.reasons {
            *self.reasons.entry(reason).or_default() += count;
        }
    }

    pub fn total(&self) -> u64 {
        self.accepted + self.refused.values().sum::<u64>()
    }
}

/// The reason that a line tells, if it tells one.
fn reason(line: &str) -> Option<&'static str> {
    let mut fields = line.strip_prefix("why\t")?.split('\t').skip(2);
    let found = fields.next()?;
    REASONS.into_iter().find(|&reason| reason == found)
}

/// A text of which a program prints something else, or fails.
#[derive(Debug)]
pub struct Difference {
    pub index: u64,
    pub text: Vec<u8>,
    pub expected: String,
    pub found: io::Result<Vec<u8>>,
}

/// Runs the program on every text, up to the first difference.
pub fn compare(program: &Path, texts: &Texts, printer: Printer) -> Result<Tally, Box<Difference>> {
    let work = |index, tally: &mut Tally| compare_one(program, texts, printer, index, tally);
    let mut tally = Tally::default();
    for part in each(texts.count(), work)? {
        tally.add(part);
    }
    Ok(tally)
}

/// What is told of the text of an index.
pub trait Indexed {
    fn index(&self) -> u64;
}

impl Indexed for Difference {
    fn index(&self) -> u64 {
        self.index
    }
}

/// Does the work for every index below the count, two at a time, up to the
/// first difference. It gives what each worker gathered.
pub fn each<T: Default + Send, D: Indexed + Send>(
    count: u64,
    work: impl Fn(u64, &mut T) -> Result<(), Box<D>> + Sync,
) -> Result<Vec<T>, Box<D>> {
    let next = AtomicU64::new(0);
    let stopped = AtomicBool::new(false);
    let worker = || {
        let mut gathered = T::default();
        while !stopped.load(Ordering::Relaxed) {
            let index = next.fetch_add(1, Ordering::Relaxed);
            if index >= count {
                break;
            }
            if let Err(difference) = work(index, &mut gathered) {
                stopped.store(true, Ordering::Relaxed);
                return Err(difference);
            }
        }
        Ok(gathered)
    };
    let results: Vec<_> = thread::scope(|scope| {
        let workers: Vec<_> = (0..THREADS).map(|_| scope.spawn(worker)).collect();
        let joined = workers.into_iter().map(|worker| worker.join());
        joined
            .map(|joined| joined.expect("no worker panics"))
            .collect()
    });
    // Every text before a difference was run, so the lowest is the first.
    let mut parts = Vec::new();
    let mut first: Option<Box<D>> = None;
    for result in results {
        match result {
            Ok(part) => parts.push(part),
            Err(found)
                if first
                    .as_ref()
                    .is_none_or(|first| found.index() < first.index()) =>
            {
                first = Some(found);
            }
            Err(_) => {}
        }
    }
    first.map_or(Ok(parts), Err)
}

fn compare_one(
    program: &Path,
    texts: &Texts,
    printer: Printer,
    index: u64,
    tally: &mut Tally,
) -> Result<(), Box<Difference>> {
    let text = texts.text(index);
    let expected = printer(&text);
    let found = output(program, &text);
    if matches!(&found, Ok(found) if found == expected.as_bytes()) {
        tally.count(&expected);
        return Ok(());
    }
    Err(Box::new(Difference {
        index,
        text,
        expected,
        found,
    }))
}

/// The number of the first line in which two outputs differ, from 1, and the
/// line in each; none where an output has ended.
pub fn first_line<'a>(
    expected: &'a [u8],
    found: &'a [u8],
) -> (usize, Option<&'a [u8]>, Option<&'a [u8]>) {
    let mut expected = expected.split_inclusive(|&byte| byte == b'\n');
    let mut found = found.split_inclusive(|&byte| byte == b'\n');
    let mut number = 1;
    loop {
        match (expected.next(), found.next()) {
            (Some(one), Some(other)) if one == other => number += 1,
            (one, other) => return (number, one, other),
        }
    }
}
