//! The listings: one row of the table a line, fields parted by tabs.

use crate::cursor::Name;
use crate::figure::{self, Face, Figure};
use crate::figure_rules;
use crate::limits;
use crate::movement::{self, Movement};
use crate::pair::{self, Pair, PairRefusal};
use crate::play::{self, Reason};
use crate::refusal::Refusal;

/// A row's word, and its numbers as they stand in the table.
pub type Row = (&'static str, Vec<i64>);

fn name_pair(name: Option<Name>) -> [i64; 2] {
    name.map_or([0, 0], |name| [name.offset as i64, name.length as i64])
}

/// The rows of a figure that has been read, in the table's order.
pub fn figure_rows(figure: &Figure) -> Result<Vec<Row>, Refusal> {
    let mut rows: Vec<Row> = vec![("name", name_pair(figure.name).to_vec())];
    rows.extend(figure.textures.iter().map(|row| ("texture", row.to_vec())));
    rows.extend(figure.colours.iter().map(|row| ("colour", row.to_vec())));
    for material in &figure.materials {
        let mut row = vec![material.blend];
        row.extend(material.flags.map(i64::from));
        row.extend([material.texture, material.colour]);
        row.extend(material.levels);
        rows.push(("material", row));
    }
    rows.extend(figure.points.iter().map(|row| ("point", row.to_vec())));
    rows.extend(figure.normals.iter().map(|row| ("normal", row.to_vec())));
    let parents = figure_rules::parents(&figure.bones)?;
    for (bone, parent) in figure.bones.iter().zip(parents) {
        let mut row = [bone.translate, bone.rotate, bone.handle].concat();
        row.extend([bone.has_child, bone.has_brother].map(i64::from));
        row.push(parent);
        row.extend(name_pair(bone.name));
        rows.push(("bone", row));
    }
    let owners = figure_rules::owners(&figure.bones, figure.points.len())?;
    rows.extend(owners.iter().map(|&owner| ("owner", vec![owner])));
    rows.extend(figure.uvs.iter().map(|row| ("uv", row.to_vec())));
    rows.extend(figure.faces.iter().map(|face| ("face", face_row(face))));
    let groups = figure.groups.iter();
    rows.extend(groups.map(|&name| ("group", name_pair(name).to_vec())));
    Ok(rows)
}

fn face_row(face: &Face) -> Vec<i64> {
    let mut row = vec![face.material, face.vertices.len() as i64];
    for corners in [&face.vertices, &face.uvs] {
        row.extend((0..4).map(|corner| corners.get(corner).copied().unwrap_or(-1)));
    }
    row.push(face.group.map_or(-1, |group| group as i64));
    row
}

/// The rows of a movement that has been read, in the table's order.
pub fn movement_rows(movement: &Movement) -> Vec<Row> {
    let mut rows: Vec<Row> = vec![
        ("frames", vec![movement.total_frames]),
        ("name", name_pair(movement.name).to_vec()),
    ];
    let mut first_key = 0;
    for bone in &movement.bones {
        let mut row = name_pair(bone.name).to_vec();
        for channel in &bone.channels {
            let count = channel.len() as i64;
            // One that is left out has no row to begin at.
            row.extend(if count == 0 {
                [0, 0]
            } else {
                [first_key, count]
            });
            first_key += count;
        }
        rows.push(("bone", row));
    }
    for key in movement.channels().flatten() {
        rows.push(("key", vec![key.frame, key.value]));
    }
    for line in &movement.patterns {
        let row = vec![line.frame, line.group, i64::from(line.flag)];
        rows.push(("pattern", row));
    }
    rows
}

fn line(word: &str, numbers: &[i64]) -> String {
    let mut line = String::from(word);
    for number in numbers {
        line.push('\t');
        line.push_str(&number.to_string());
    }
    line.push('\n');
    line
}

fn refused(refusal: Refusal) -> String {
    line("refused", &[i64::from(refusal.number), refusal.place])
}

/// A refusal of a pair has its file too.
fn refused_pair(found: PairRefusal) -> String {
    let Refusal { number, place } = found.refusal;
    let numbers = [i64::from(number), place, i64::from(found.file)];
    line("refused", &numbers)
}

fn listed(word: &str, total: usize, rows: &[Row]) -> String {
    let mut listing = line(word, &[total as i64]);
    for (word, numbers) in rows {
        listing.push_str(&line(word, numbers));
    }
    listing
}

/// The listing of a figure, or its refusal.
pub fn figure_listing(text: &[u8]) -> String {
    let read = figure::read(text, limits::FIGURE_ROOM);
    let rows = read.and_then(|figure| Ok((figure.total(), figure_rows(&figure)?)));
    match rows {
        Ok((total, rows)) => listed("figure", total, &rows),
        Err(refusal) => refused(refusal),
    }
}

/// The listing of a movement, or its refusal.
pub fn movement_listing(text: &[u8]) -> String {
    match movement::read(text, limits::MOVEMENT_ROOM) {
        Ok(movement) => listed("movement", movement.total(), &movement_rows(&movement)),
        Err(refusal) => refused(refusal),
    }
}

/// Every sample of a movement, or its refusal.
pub fn sample_listing(text: &[u8]) -> String {
    let movement = match movement::read(text, limits::MOVEMENT_ROOM) {
        Ok(movement) => movement,
        Err(refusal) => return refused(refusal),
    };
    let mut listing = String::new();
    for bone in 0..movement.bones.len() as i64 {
        for channel in 0..movement::CHANNELS as i64 {
            for frame in 0..movement.total_frames {
                if let Some(value) = play::sample(&movement, bone, channel, frame) {
                    let numbers = [bone, channel, frame, value.numerator, value.denominator];
                    listing.push_str(&line("sample", &numbers));
                }
            }
        }
    }
    listing
}

/// Every corner of a figure's faces, or its refusal.
pub fn corner_listing(text: &[u8]) -> String {
    let figure = match figure::read(text, limits::FIGURE_ROOM) {
        Ok(figure) => figure,
        Err(refusal) => return refused(refusal),
    };
    let mut listing = String::new();
    for face in 0..figure.faces.len() as i64 {
        for number in 0..4 {
            if let Some(corner) = play::corner(&figure, face, number) {
                let mut numbers = vec![face, number];
                numbers.extend(corner.position);
                numbers.extend([corner.owner, corner.material]);
                numbers.extend(corner.uv.into_iter().flatten());
                listing.push_str(&line("corner", &numbers));
            }
        }
    }
    listing
}

/// The totals of a pair's tables and the name of each bone, or its refusal.
pub fn pair_listing(text: &[u8]) -> String {
    let pair = match pair::load_input(text) {
        Ok(pair) => pair,
        Err(found) => return refused_pair(found),
    };
    let totals = [pair.figure.total() as i64, pair.movement.total() as i64];
    let mut listing = line("pair", &totals);
    for bone in 0..pair.figure.bones.len() as i64 {
        if let Some(name) = play::label(
            &pair.figure,
            pair.figure_text,
            &pair.movement,
            pair.movement_text,
            bone,
        ) {
            listing.push_str(&format!("label\t{bone}\t"));
            // The bytes of a name are 32 to 126.
            listing.extend(name.iter().map(|&byte| char::from(byte)));
            listing.push('\n');
        }
    }
    listing
}

/// A line for every face and frame of a pair, or its refusal.
fn face_listing(text: &[u8], line_at: fn(&Pair, i64, i64) -> Option<String>) -> String {
    let pair = match pair::load_input(text) {
        Ok(pair) => pair,
        Err(found) => return refused_pair(found),
    };
    let mut listing = String::new();
    for face in 0..pair.figure.faces.len() as i64 {
        for frame in 0..pair.movement.total_frames {
            listing.extend(line_at(&pair, face, frame));
        }
    }
    listing
}

/// Whether each face of a pair is shown at each frame, 1 or 0, or its refusal.
pub fn shown_listing(text: &[u8]) -> String {
    face_listing(text, |pair, face, frame| {
        let shown = play::shown(&pair.figure, &pair.movement, face, frame)?;
        Some(line("shown", &[face, frame, i64::from(shown)]))
    })
}

/// The words of the reasons, in the paper's order.
pub const REASONS: [&str; 4] = ["shown", "corner", "unset", "line"];

/// That each face of a pair is shown at each frame or what hides it, or its
/// refusal.
pub fn why_listing(text: &[u8]) -> String {
    face_listing(text, |pair, face, frame| {
        let reason = play::why(&pair.figure, &pair.movement, face, frame)?;
        Some(format!("why\t{face}\t{frame}\t{}\n", reason_fields(reason)))
    })
}

/// A reason's word, and its corner or row.
fn reason_fields(reason: Reason) -> String {
    let [shown, corner, unset, line] = REASONS;
    match reason {
        Reason::Shown => shown.into(),
        Reason::Corner(number) => format!("{corner}\t{number}"),
        Reason::Unset => unset.into(),
        Reason::Line(row) => format!("{line}\t{row}"),
    }
}
