//! Writes test texts from a seed.
//!
//! `generate SEED COUNT KIND OUT` writes COUNT texts into the directory OUT,
//! or as one stream of records to standard output if OUT is `-`.
//! `generate --summary SEED COUNT KIND` counts what the reader says of them.
//! KIND is sound or damaged figures, movements or pairs, with a hyphen
//! between.

use independent::generate::{text, Kind};
use independent::many;
use std::collections::BTreeMap;
use std::error::Error;
use std::io::{BufWriter, Write};
use std::path::Path;

const USAGE: &str = "generate SEED COUNT KIND OUT | generate --summary SEED COUNT KIND";

fn main() -> Result<(), Box<dyn Error>> {
    let arguments: Vec<String> = std::env::args().skip(1).collect();
    let words: Vec<&str> = arguments.iter().map(String::as_str).collect();
    let (seed, count, kind, out) = match words[..] {
        ["--summary", seed, count, kind] => (seed, count, kind, None),
        [seed, count, kind, out] => (seed, count, kind, Some(out)),
        _ => return Err(USAGE.into()),
    };
    let (seed, count) = (seed.parse()?, count.parse()?);
    let kind = Kind::from_word(kind).ok_or(USAGE)?;
    match out {
        None => summary(kind, seed, count),
        Some("-") => stream(kind, seed, count),
        Some(directory) => files(kind, seed, count, Path::new(directory)),
    }
}

fn stream(kind: Kind, seed: u64, count: u64) -> Result<(), Box<dyn Error>> {
    let mut output = BufWriter::new(std::io::stdout().lock());
    for index in 0..count {
        output.write_all(&many::record(&text(kind, seed, index)))?;
    }
    output.flush()?;
    Ok(())
}

fn files(kind: Kind, seed: u64, count: u64, directory: &Path) -> Result<(), Box<dyn Error>> {
    std::fs::create_dir_all(directory)?;
    let ending = kind.subject().ending();
    for index in 0..count {
        let path = directory.join(format!("{index:05}.{ending}"));
        std::fs::write(path, text(kind, seed, index))?;
    }
    Ok(())
}

fn summary(kind: Kind, seed: u64, count: u64) -> Result<(), Box<dyn Error>> {
    let mut counts: BTreeMap<u8, u64> = BTreeMap::new();
    let mut bytes = 0;
    for index in 0..count {
        let text = text(kind, seed, index);
        bytes += text.len();
        let refusal = kind.subject().refusal(&text);
        *counts
            .entry(refusal.map_or(0, |refusal| refusal.number))
            .or_default() += 1;
    }
    println!("bytes\t{bytes}");
    for (number, count) in counts {
        match number {
            0 => println!("accepted\t{count}"),
            _ => println!("refused\t{number}\t{count}"),
        }
    }
    Ok(())
}
