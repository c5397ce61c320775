//! Blanks and comments after words: what they do to places, and that they make
//! no other difference.

mod common;

use common::{changed, figure_of, movement_of, FIGURE, MOVEMENT};
use independent::annotate::{annotate, put, Annotated, Gap};
use independent::compare::{self, Content};
use independent::generate::rng::Rng;
use independent::generate::{text, Kind};
use independent::limits::TEXT_BYTES;
use independent::listing::{
    corner_listing, figure_listing, movement_listing, pair_listing, sample_listing,
};
use independent::many;
use independent::notes::{self, held, Noted, NotedTexts, Tally};
use independent::subject::Subject;
use independent::token::{lex, Kind as WordKind, Token};
use std::collections::BTreeSet;
use std::path::Path;

fn gap(word: usize, bytes: &str) -> Gap {
    let bytes = bytes.into();
    Gap { word, bytes }
}

/// The number of the first plain word of these bytes.
fn number_of(words: &[Token], bytes: &str) -> usize {
    let is_it = |word: &Token| word.kind == WordKind::Word && word.bytes == bytes.as_bytes();
    words.iter().position(is_it).unwrap()
}

/// The text with one gap directly after the first such word.
fn annotated(text: &str, mark: &[u8; 4], word: &str, bytes: &str) -> Annotated {
    let words = lex(text.as_bytes(), mark).unwrap();
    let gaps = [gap(number_of(&words, word), bytes)];
    put(text.as_bytes(), &words, &gaps)
}

/// A figure with one gap directly after the first such word.
fn noted_figure(text: &str, word: &str, bytes: &str) -> Noted {
    let figure = annotated(text, b";BAC", word, bytes);
    Noted {
        subject: Subject::Figure,
        plain: text.into(),
        noted: figure.text.clone(),
        files: [Some(figure), None],
    }
}

/// The listings of a figure and of the same with a gap; the second is as it is
/// to be.
fn listings(text: &str, word: &str, bytes: &str) -> [String; 2] {
    let noted = noted_figure(text, word, bytes);
    let [plain, with_gap] = [&noted.plain, &noted.noted].map(|text| figure_listing(text));
    assert_eq!(noted.moved(plain.as_bytes()), with_gap.as_bytes());
    [plain, with_gap]
}

#[test]
fn a_comment_in_the_papers_figure() {
    let [plain, noted] = listings(FIGURE, "Polygons", ";\"(\n");
    assert!(plain.starts_with("figure\t57\nname\t0\t0\n"));
    // It has no names.
    assert_eq!(plain, noted);
    let text = noted_figure(FIGURE, "Polygons", ";\"(\n");
    let expected = changed(FIGURE, "(Polygons(", "(Polygons;\"(\n(");
    assert_eq!(text.noted, expected.as_bytes());
    assert_eq!(corner_listing(&text.plain), corner_listing(&text.noted));
}

#[test]
fn the_texts_end_moves() {
    let text = changed(FIGURE, "))))\n", ")))\n");
    let refused = ["refused\t5\t435\n", "refused\t5\t439\n"];
    assert_eq!(listings(&text, "Head", "    "), refused);
    assert_eq!(listings(&text, "Head", "\t\n\r "), refused);
    // Behind the last word too.
    let words = lex(text.as_bytes(), b";BAC").unwrap();
    let last = put(text.as_bytes(), &words, &[gap(words.len() - 1, ";)\n")]);
    assert_eq!(figure_listing(&last.text), "refused\t5\t438\n");
    assert_eq!(last.place(435), Some(438));
}

#[test]
fn the_version_moves() {
    let text = changed(FIGURE, "6.0", "6.00");
    let refused = ["refused\t7\t22\n", "refused\t7\t25\n"];
    assert_eq!(listings(&text, "bacVersion", ";x\n"), refused);
    let refused = ["refused\t7\t22\n", "refused\t7\t22\n"];
    assert_eq!(listings(&text, "6.00", ";x\n"), refused);
    let text = changed(FIGURE, "1.5", "10000000");
    let place = text.find("10000000").unwrap();
    let refused = [place, place + 1].map(|place| format!("refused\t6\t{place}\n"));
    assert_eq!(listings(&text, "Head", " "), refused);
}

/// The name of a figure, of a bone and of a group.
#[test]
fn names_move() {
    let text = changed(FIGURE, "(Figure", "(Figure(name\"ab\")");
    let [plain, noted] = listings(&text, "Figure", ";x\n");
    assert!(plain.contains("\nname\t40\t2\n"), "{plain}");
    assert_eq!(noted, plain.replace("\nname\t40\t2\n", "\nname\t43\t2\n"));
    let [plain, noted] = listings(&text, "Materials", ";x\n");
    assert_eq!(noted, plain);

    let text = changed(
        &figure_of(&[Some(""), None], 1),
        "(group",
        "(group(name \"g;\")",
    );
    let [bone, group] = ["\"\"", "\"g;"].map(|part| text.find(part).unwrap() + 1);
    let [plain, noted] = listings(&text, "Bones", "   ");
    let lines =
        |bone: usize, group: usize| [format!("\t-1\t{bone}\t0\n"), format!("group\t{group}\t2\n")];
    for (old, new) in lines(bone, group).iter().zip(lines(bone + 3, group + 3)) {
        assert!(plain.contains(old) && noted.contains(&new), "{noted}");
    }
    assert!(noted.contains("\t-1\t0\t0\n"), "{noted}");
}

#[test]
fn the_names_of_a_movement_move() {
    let text = movement_of(&[Some("ab"), None], "");
    let movement = annotated(&text, b";TRA", "Figure", ";\u{1}\"\n");
    let noted = Noted {
        subject: Subject::Movement,
        plain: text.clone().into(),
        noted: movement.text.clone(),
        files: [None, Some(movement)],
    };
    let [plain, with_gap] = [&noted.plain, &noted.noted].map(|text| movement_listing(text));
    assert_eq!(noted.moved(plain.as_bytes()), with_gap.as_bytes());
    let place = text.find("ab\"").unwrap();
    assert!(
        plain.contains(&format!("\nbone\t{place}\t2\t0\t1\t")),
        "{plain}"
    );
    let moved = plain.replace(&format!("\t{place}\t2\t"), &format!("\t{}\t2\t", place + 4));
    assert_eq!(with_gap, moved);
    assert_eq!(sample_listing(&noted.plain), sample_listing(&noted.noted));
}

/// A refusal of a pair moves with the file that it is in.
#[test]
fn a_pairs_refusals_move() {
    let noted_pair = |figure: &str, movement: &str, turn: [bool; 2]| {
        let of_figure = annotated(figure, b";BAC", "Head", "   ");
        let of_movement = annotated(movement, b";TRA", "Head", ";\n");
        let plain = many::pair(figure.as_bytes(), movement.as_bytes());
        let [first, second] = turn;
        let figure = if first {
            &of_figure.text
        } else {
            figure.as_bytes()
        };
        let movement = if second {
            &of_movement.text
        } else {
            movement.as_bytes()
        };
        Noted {
            subject: Subject::Pair,
            plain,
            noted: many::pair(figure, movement),
            files: [first.then_some(of_figure), second.then_some(of_movement)],
        }
    };
    let places = |figure: &str, movement: &str| {
        [[true, false], [false, true], [true, true]].map(|turn| {
            let noted = noted_pair(figure, movement, turn);
            let [plain, with_gap] = [&noted.plain, &noted.noted].map(|text| pair_listing(text));
            assert_eq!(noted.moved(plain.as_bytes()), with_gap.as_bytes());
            with_gap
        })
    };
    let figure = figure_of(&[Some("b")], 2);
    let refused = ["7\t25\t0", "7\t22\t0", "7\t25\t0"].map(|rest| format!("refused\t{rest}\n"));
    assert_eq!(places(&changed(&figure, "6.0", "6.1"), MOVEMENT), refused);
    let refused = ["7\t22\t1", "7\t24\t1", "7\t24\t1"].map(|rest| format!("refused\t{rest}\n"));
    assert_eq!(places(&figure, &changed(MOVEMENT, "4.0", "4.1")), refused);
    let refused = ["refused\t18\t2\t2\n"; 3];
    assert_eq!(places(&figure, &movement_of(&[None, None], "")), refused);
    let labels = ["pair\t61\t55\nlabel\t0\tb\n"; 3];
    assert_eq!(places(&figure, MOVEMENT), labels);
}

/// Only the places of 5, 6 and 7 and of names move, and only from words.
#[test]
fn no_other_number_moves() {
    let noted = noted_figure(FIGURE, "Head", "   ");
    let moved = |line: &str| String::from_utf8(noted.moved(line.as_bytes())).unwrap();
    for number in [5, 6, 7] {
        let line = |place: &str| format!("refused\t{number}\t{place}\n");
        assert_eq!(moved(&line("5")), line("5"));
        assert_eq!(moved(&line("10")), line("13"));
        assert_eq!(moved(&line("436")), line("439"));
        assert_eq!(moved(&line("7")), line("no place"));
        assert_eq!(moved(&line("x")), line("no place"));
    }
    for number in (1..=4).chain(8..=20) {
        let line = format!("refused\t{number}\t10\n");
        assert_eq!(moved(&line), line);
    }
    assert_eq!(
        moved("name\t11\t2\ngroup\t0\t0\n"),
        "name\t14\t2\ngroup\t0\t0\n"
    );
    assert_eq!(moved("name\t10\t2\n"), "name\tno place\t2\n");
    let others = "point\t10\t10\t10\nowner\t10\ncorner\t10\nlabel\t10\tname\n";
    assert_eq!(moved(others), others);
    let bone = "bone\t10\t10\t10\t10\t10\t10\t10\t10\t10\t0\t0\t-1\t";
    assert_eq!(moved(&format!("{bone}11\t10\n")), format!("{bone}14\t10\n"));
    assert_eq!(moved(&format!("{bone}0\t0\n")), format!("{bone}0\t0\n"));
}

#[test]
fn gaps_stand_directly_after_their_words() {
    let text = ";BAC\na\"b;\"(;c\n) ;d";
    let words = lex(text.as_bytes(), b";BAC").unwrap();
    let gaps = [
        gap(1, " "),
        gap(0, ";\n"),
        gap(3, ""),
        gap(1, ";e\n"),
        gap(3, "\r"),
    ];
    let put = put(text.as_bytes(), &words, &gaps);
    let expected = ";BAC\na;\n\"b;\" ;e\n(;c\n)\r ;d";
    assert_eq!(String::from_utf8(put.text).unwrap(), expected);
    let places = [(5, 5), (6, 8), (10, 16), (14, 20), (18, 25)];
    assert_eq!(put.places, places);
    assert_eq!((put.gaps, put.filled), (4, false));
}

const KINDS: [(Kind, &[u8; 4]); 4] = [
    (Kind::SoundFigures, b";BAC"),
    (Kind::DamagedFigures, b";BAC"),
    (Kind::SoundMovements, b";TRA"),
    (Kind::DamagedMovements, b";TRA"),
];

/// Calls with a text that passes 1 to 4, its words and what it was made to.
fn each_annotated(count: u64, mut check: impl FnMut(&[u8], &[u8; 4], &[Token], Annotated)) {
    for (kind, mark) in KINDS {
        for index in 0..count {
            let text = text(kind, 1, index);
            if let Ok(words) = lex(&text, mark) {
                let found = annotate(&mut Rng::new(2, index), &text, &words);
                check(&text, mark, &words, found);
            }
        }
    }
}

#[test]
fn the_words_stay_and_are_where_they_are_said_to_be() {
    each_annotated(200, |text, mark, words, found| {
        assert!(found.text.len() <= TEXT_BYTES);
        let new = lex(&found.text, mark).unwrap();
        let bytes = |words: &[Token]| -> Vec<_> {
            words
                .iter()
                .map(|word| (word.kind, word.bytes.to_vec()))
                .collect()
        };
        assert_eq!(bytes(words), bytes(&new));
        let places = |words: &[Token], end: usize| -> Vec<usize> {
            words.iter().map(|word| word.offset).chain([end]).collect()
        };
        let [old, new] = [places(words, text.len()), places(&new, found.text.len())];
        assert_eq!(found.places, old.into_iter().zip(new).collect::<Vec<_>>());
    });
}

/// Where a word ends.
fn end(word: &Token) -> usize {
    word.offset + word.bytes.len() + if word.kind == WordKind::String { 2 } else { 0 }
}

/// What stands directly after a word in the new text that did not in the old.
fn inserted<'a>(words: &[Token], found: &'a Annotated, number: usize) -> &'a [u8] {
    let [(old, new), (old_next, new_next)] = [found.places[number], found.places[number + 1]];
    let start = new + end(&words[number]) - old;
    &found.text[start..start + (new_next - new) - (old_next - old)]
}

/// One gap and several, at the last word and at every word, of each blank and
/// of comments with every sort of byte, up to the most bytes.
#[test]
fn gaps_of_every_sort() {
    let mut met = BTreeSet::new();
    let mut bytes = BTreeSet::new();
    each_annotated(100, |text, _, words, found| {
        let gaps: Vec<&[u8]> = (0..words.len())
            .map(|number| inserted(words, &found, number))
            .collect();
        let filled_words = gaps.iter().filter(|gap| !gap.is_empty()).count();
        let sorts = [
            ("one", found.gaps == 1),
            ("none with bytes", found.gaps == 0 && !words.is_empty()),
            ("several words", filled_words > 1),
            ("several at one word", found.gaps > 1 && filled_words == 1),
            (
                "half of all words",
                words.len() > 20 && 2 * filled_words > words.len(),
            ),
            (
                "the last word",
                gaps.last().is_some_and(|gap| !gap.is_empty()),
            ),
            ("filled", found.filled && found.text.len() == TEXT_BYTES),
            ("as it was", found.text == text),
            ("space", gaps.contains(&&b" "[..])),
            ("tab", gaps.contains(&&b"\t"[..])),
            ("carriage return", gaps.contains(&&b"\r"[..])),
            ("line feed", gaps.contains(&&b"\n"[..])),
            ("empty comment", gaps.contains(&&b";\n"[..])),
            (
                "many blanks",
                gaps.iter()
                    .any(|gap| gap.len() > 100 && gap.trim_ascii().is_empty()),
            ),
            ("unpaired quote", gaps.contains(&&b";\"\n"[..])),
            ("quote and bracket", gaps.contains(&&b";\"(\n"[..])),
        ];
        met.extend(sorts.into_iter().filter(|sort| sort.1).map(|sort| sort.0));
        let comments = gaps.iter().filter(|gap| gap.first() == Some(&b';'));
        bytes.extend(comments.flat_map(|gap| gap.iter().copied()));
    });
    assert_eq!(met.len(), 16, "{met:?}");
    assert_eq!(bytes.len(), 256);
}

#[test]
fn a_text_without_words_or_room_stays() {
    for text in [&b";BAC"[..], b";BAC\n", b";BAC \xff;\n ;("] {
        for seed in 0..100 {
            let found = annotate(&mut Rng::new(seed, 0), text, &[]);
            assert_eq!((&found.text[..], found.gaps), (text, 0));
            assert_eq!(found.places, [(text.len(), text.len())]);
        }
    }
    let mut full = FIGURE.as_bytes().to_vec();
    full.resize(TEXT_BYTES, b' ');
    let words = lex(&full, b";BAC").unwrap();
    for seed in 0..100 {
        let found = annotate(&mut Rng::new(seed, 0), &full, &words);
        assert_eq!((&found.text, found.gaps, found.filled), (&full, 0, false));
    }
}

/// Texts that are refused with 1 to 4 are left out; of a pair those of which
/// one that is to have notes is.
#[test]
fn texts_left_out() {
    let noted = |kind, count: u64| {
        let texts = NotedTexts {
            kind,
            seed: 1,
            count,
        };
        (0..count)
            .filter(|&index| texts.text(index).is_some())
            .collect::<Vec<_>>()
    };
    for (kind, mark) in KINDS {
        let passes = |&index: &u64| lex(&text(kind, 1, index), mark).is_ok();
        assert_eq!(
            noted(kind, 300),
            (0..300).filter(passes).collect::<Vec<_>>()
        );
    }
    assert_eq!(noted(Kind::SoundPairs, 30).len(), 30);
    let passes = |index: u64| {
        let text = text(Kind::DamagedPairs, 1, index);
        many::split_first(&text).is_ok_and(|(figure, movement)| {
            (index % 3 == 1 || lex(figure, b";BAC").is_ok())
                && (index % 3 < 1 || lex(movement, b";TRA").is_ok())
        })
    };
    let expected: Vec<u64> = (0..300).filter(|&index| passes(index)).collect();
    assert!(expected.len() < 300);
    assert_eq!(noted(Kind::DamagedPairs, 300), expected);
}

/// The same seed and index give the same notes, another seed others.
#[test]
fn notes_are_the_same_each_time() {
    let texts = |seed| NotedTexts {
        kind: Kind::SoundFigures,
        seed,
        count: 5,
    };
    for index in 0..5 {
        assert_eq!(texts(1).text(index), texts(1).text(index));
        assert_ne!(texts(1).text(index), texts(2).text(index));
    }
}

/// Places said to be elsewhere are found before any program runs.
#[test]
fn this_reader_differs_from_wrong_places() {
    let text = changed(FIGURE, "6.0", "6.00");
    let mut noted = noted_figure(&text, "bacVersion", ";x\n");
    for place in &mut noted.files[0].as_mut().unwrap().places {
        place.1 = place.0;
    }
    let unlike = held(Path::new("missing"), &noted, figure_listing).unwrap_err();
    assert!(unlike.own);
    assert_eq!(unlike.expected, b"refused\t7\t22\n");
    assert_eq!(unlike.found.unwrap(), b"refused\t7\t25\n");
    // With the right places it is the program that fails.
    let noted = noted_figure(&text, "bacVersion", ";x\n");
    let unlike = held(Path::new("missing"), &noted, figure_listing).unwrap_err();
    assert!(!unlike.own && unlike.found.is_err());
}

/// A reader to which notes make a difference, found at the first text that has
/// some.
#[test]
fn this_reader_differs_where_it_is_wrong() {
    let texts = NotedTexts {
        kind: Kind::SoundFigures,
        seed: 1,
        count: 20,
    };
    let length = |text: &[u8]| format!("{}\n", text.len());
    let found = notes::compare(Path::new("missing"), &texts, length).unwrap_err();
    let unlike = found.unlike;
    assert!(unlike.own);
    assert_eq!(unlike.expected, length(&found.text.plain).into_bytes());
    assert_eq!(
        unlike.found.unwrap(),
        length(&found.text.noted).into_bytes()
    );
    assert_eq!(texts.text(found.index), Some(found.text));
}

/// What many texts of a kind have all met, one each.
fn all_met(kind: Kind) -> Tally {
    let refused: &[u8] = match kind {
        Kind::DamagedPairs => &[5, 6, 7, 12, 18, 19, 20],
        Kind::DamagedFigures | Kind::DamagedMovements => &[5, 6, 7, 12],
        _ => &[],
    };
    Tally {
        answers: compare::Tally {
            accepted: 1,
            refused: refused.iter().map(|&number| (number, 1)).collect(),
            ..compare::Tally::default()
        },
        names: u64::from(refused.is_empty()),
        refusals: u64::from(!refused.is_empty()),
        several: 1,
        filled: 1,
        ..Tally::default()
    }
}

/// What is wrong with a tally in which something is changed.
fn unmet(kind: Kind, count: u64, content: Content, change: impl Fn(&mut Tally)) -> Vec<String> {
    let mut tally = all_met(kind);
    change(&mut tally);
    let seed = 1;
    NotedTexts { kind, seed, count }.unmet(content, &tally)
}

const SOUND: [Kind; 3] = [Kind::SoundFigures, Kind::SoundMovements, Kind::SoundPairs];
const DAMAGED: [Kind; 3] = [
    Kind::DamagedFigures,
    Kind::DamagedMovements,
    Kind::DamagedPairs,
];

/// A comparison of many shows something only if texts were accepted, had several
/// gaps and were filled.
#[test]
fn many_texts_must_meet_everything() {
    for kind in SOUND.into_iter().chain(DAMAGED) {
        let many = |change: fn(&mut Tally)| unmet(kind, 500, Content::Played, change);
        assert!(many(|_| ()).is_empty());
        let accepted = many(|tally| tally.answers.accepted = 0);
        assert_eq!(accepted, ["no text was accepted"]);
        let several = many(|tally| tally.several = 0);
        assert_eq!(several, ["no text had several gaps"]);
        let filled = many(|tally| tally.filled = 0);
        assert_eq!(filled, ["no text was filled"]);
        let nothing = |tally: &mut Tally| *tally = Tally::default();
        assert!(unmet(kind, 499, Content::Listing, nothing).is_empty());
    }
}

/// Many damaged ones must be refused at a word and elsewhere, pairs as pairs
/// too, and a place must move.
#[test]
fn many_damaged_texts_must_meet_refusals() {
    for kind in DAMAGED {
        let many = |change: &dyn Fn(&mut Tally)| unmet(kind, 500, Content::Played, change);
        for number in all_met(kind).answers.refused.into_keys() {
            let named = if number == 12 {
                "8 to 17".into()
            } else {
                number.to_string()
            };
            let without = many(&|tally| {
                tally.answers.refused.remove(&number);
            });
            assert_eq!(without, [format!("no text was refused with {named}")]);
        }
        for number in [8, 17] {
            let other = |tally: &mut Tally| {
                tally.answers.refused.remove(&12);
                tally.answers.refused.insert(number, 1);
            };
            assert!(many(&other).is_empty());
        }
        let still = many(&|tally| tally.refusals = 0);
        assert_eq!(still, ["no refusal's place moved"]);
        assert!(many(&|tally| tally.left_out = 3).is_empty());
    }
}

/// In many listings of sound ones a name must move. None is left out.
#[test]
fn sound_texts_must_stay_and_names_move() {
    for kind in SOUND {
        let still = |content| unmet(kind, 500, content, |tally| tally.names = 0);
        assert_eq!(still(Content::Listing), ["no name's place moved"]);
        for content in [Content::Played, Content::Pair, Content::Why] {
            assert!(still(content).is_empty());
        }
        let left_out = unmet(kind, 5, Content::Played, |tally| tally.left_out = 3);
        assert_eq!(left_out, ["3 sound texts were left out"]);
    }
}

#[test]
fn a_text_of_which_something_else_is_printed_is_told() {
    let strange = unmet(Kind::DamagedPairs, 3, Content::Pair, |tally| {
        tally.strange = 2
    });
    assert_eq!(strange, ["of 2 texts this reader prints something else"]);
}
