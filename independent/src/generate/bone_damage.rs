//! Damage to the chunks of a movement's bone: what is refused with 5 although
//! any channel may be left out.

use super::movement::{write_channel, Key, CHANNELS};
use super::piece::{Piece, PieceKind, Writer};
use super::piece_damage::chunk_end;
use super::rng::Rng;

/// Keywords that are no channels.
const OTHERS: [&str; 12] = [
    "translate",
    "scale",
    "rotate",
    "roll.x",
    "Roll",
    "scale.w",
    "translate.X",
    "kf",
    "kgf",
    "bone",
    "hasChild",
    "0",
];

type Chunk = Vec<Piece>;

/// Damages one bone, if there is one.
pub fn damage(rng: &mut Rng, pieces: &mut Vec<Piece>) {
    let bones: Vec<usize> = (0..pieces.len())
        .filter(|&at| has_keyword(&pieces[at..], "bone"))
        .collect();
    if bones.is_empty() {
        return;
    }
    let start = *rng.pick(&bones) + 2;
    let mut chunks: Vec<Chunk> = Vec::new();
    let mut end = start;
    while pieces.get(end).map(|piece| piece.kind) == Some(PieceKind::Open) {
        let next = chunk_end(pieces, end);
        chunks.push(pieces[end..next].to_vec());
        end = next;
    }
    damage_chunks(rng, &mut chunks);
    pieces.splice(start..end, chunks.concat());
}

fn has_keyword(pieces: &[Piece], keyword: &str) -> bool {
    matches!(pieces, [open, word, ..]
        if open.kind == PieceKind::Open && word.bytes == keyword.as_bytes())
}

fn damage_chunks(rng: &mut Rng, chunks: &mut Vec<Chunk>) {
    let named = usize::from(place_of(chunks, "name") == Some(0));
    match rng.below(7) {
        0 => without_keys(rng, chunks),
        1 => repeated(rng, chunks, named),
        2 => late_name(rng, chunks),
        3 => eleventh(rng, chunks),
        4 | 5 => {
            let other = no_channel(rng);
            insert(rng, chunks, named, other);
        }
        // The bone ends before a channel, or `Figure` does behind the bone.
        _ => insert(rng, chunks, named, vec![Piece::new(PieceKind::Close, ")")]),
    }
}

/// Inserts a chunk anywhere behind the first `least`.
fn insert(rng: &mut Rng, chunks: &mut Vec<Chunk>, least: usize, chunk: Chunk) {
    let at = least + rng.below(chunks.len() - least + 1);
    chunks.insert(at, chunk);
}

fn chunk(rng: &mut Rng, keyword: &str, keys: &[Key]) -> Chunk {
    let mut writer = Writer::new(rng, false);
    write_channel(&mut writer, keyword, keys);
    writer.pieces
}

fn name(rng: &mut Rng) -> Chunk {
    let mut writer = Writer::new(rng, false);
    writer.name(&Some(b"late".to_vec()));
    writer.pieces
}

fn place_of(chunks: &[Chunk], keyword: &str) -> Option<usize> {
    chunks.iter().position(|chunk| has_keyword(chunk, keyword))
}

/// A channel that stands loses its keys, or one more stands without any.
fn without_keys(rng: &mut Rng, chunks: &mut Vec<Chunk>) {
    let channel = *rng.pick(&CHANNELS);
    let empty = chunk(rng, channel, &[]);
    match place_of(chunks, channel) {
        Some(place) => chunks[place] = empty,
        None => insert(rng, chunks, 0, empty),
    }
}

/// A channel stands again, behind itself.
fn repeated(rng: &mut Rng, chunks: &mut Vec<Chunk>, named: usize) {
    let channel = *rng.pick(&CHANNELS);
    let again = chunk(rng, channel, &[(0, 0)]);
    if place_of(chunks, channel).is_none() {
        insert(rng, chunks, named, again.clone());
    }
    let behind = place_of(chunks, channel).map_or(0, |place| place + 1);
    insert(rng, chunks, behind, again);
}

/// A chunk that has another keyword, or none.
fn no_channel(rng: &mut Rng) -> Chunk {
    let keyword = *rng.pick(&OTHERS);
    let mut other = chunk(rng, keyword, &[(0, 0)]);
    if rng.once_in(6) {
        other.remove(1);
    }
    other
}

/// A name stands behind a channel or another name.
fn late_name(rng: &mut Rng, chunks: &mut Vec<Chunk>) {
    if chunks.is_empty() {
        let channel = *rng.pick(&CHANNELS);
        chunks.push(chunk(rng, channel, &[(0, 0)]));
    }
    let late = name(rng);
    insert(rng, chunks, 1, late);
}

/// All ten channels stand, and one chunk more.
fn eleventh(rng: &mut Rng, chunks: &mut Vec<Chunk>) {
    for channel in CHANNELS {
        if place_of(chunks, channel).is_none() {
            chunks.push(chunk(rng, channel, &[(0, 0)]));
        }
    }
    chunks.push(match rng.below(3) {
        0 => name(rng),
        1 => no_channel(rng),
        _ => chunk(rng, CHANNELS[0], &[(0, 0)]),
    });
}
