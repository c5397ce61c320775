//! One text or a stream of many, from standard input to standard output.
//!
//! A record of a stream is eight decimal digits, a line feed, and that many
//! bytes. After the listing of each record comes a line `--`.
//! A pair is the record of a figure, and then the text of a movement.

use std::io::{self, BufWriter, Error, ErrorKind, Read, Write};

const HEAD: usize = 9;

/// The record of a text.
pub fn record(text: &[u8]) -> Vec<u8> {
    let mut record = format!("{:08}\n", text.len()).into_bytes();
    record.extend_from_slice(text);
    record
}

/// Splits a stream into its texts.
pub fn split(mut stream: &[u8]) -> Result<Vec<&[u8]>, String> {
    let mut texts = Vec::new();
    while !stream.is_empty() {
        let (text, rest) = split_first(stream)?;
        texts.push(text);
        stream = rest;
    }
    Ok(texts)
}

/// The text of the first record, and what follows it.
pub fn split_first(stream: &[u8]) -> Result<(&[u8], &[u8]), String> {
    let (head, rest) = stream
        .split_at_checked(HEAD)
        .ok_or("a record's head is cut short")?;
    let (digits, line_feed) = head.split_at(HEAD - 1);
    if line_feed != b"\n" || !digits.iter().all(u8::is_ascii_digit) {
        return Err("a record's head is not eight digits and a line feed".into());
    }
    let length = digits
        .iter()
        .fold(0, |sum, &digit| sum * 10 + usize::from(digit - b'0'));
    let split = rest.split_at_checked(length);
    Ok(split.ok_or("a record's text is cut short")?)
}

/// A figure and a movement in one text.
pub fn pair(figure: &[u8], movement: &[u8]) -> Vec<u8> {
    [&record(figure), movement].concat()
}

/// Runs a listing program: one text, or many with the argument `--many`.
pub fn run(listing: fn(&[u8]) -> String) -> io::Result<()> {
    let arguments: Vec<String> = std::env::args().skip(1).collect();
    let mut input = Vec::new();
    io::stdin().read_to_end(&mut input)?;
    let mut output = BufWriter::new(io::stdout().lock());
    match arguments.iter().map(String::as_str).collect::<Vec<_>>()[..] {
        [] => output.write_all(listing(&input).as_bytes())?,
        ["--many"] => {
            let texts = split(&input).map_err(|why| Error::new(ErrorKind::InvalidData, why))?;
            for text in texts {
                output.write_all(listing(text).as_bytes())?;
                output.write_all(b"--\n")?;
            }
        }
        _ => {
            let usage = "the only argument is --many";
            return Err(Error::new(ErrorKind::InvalidInput, usage));
        }
    }
    output.flush()
}
