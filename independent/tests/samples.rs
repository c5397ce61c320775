//! The papers' samples, as printed and mended.

use independent::listing::{figure_listing, movement_listing};
use independent::movement;
use independent::play::{sample, Fraction};
use std::path::Path;

fn text(name: &str) -> Vec<u8> {
    let path = Path::new(env!("CARGO_MANIFEST_DIR"))
        .join("samples")
        .join(name);
    std::fs::read(path).unwrap()
}

/// The offset of the last `)` but `skip` before a part of the text.
fn close_before(text: &[u8], part: &str, skip: usize) -> usize {
    let end = offset(text, part);
    let mut closes = (0..end).rev().filter(|&at| text[at] == b')');
    closes.nth(skip).unwrap()
}

/// The offset of a part that stands in the text once.
fn offset(text: &[u8], part: &str) -> usize {
    let text = std::str::from_utf8(text).unwrap();
    assert_eq!(text.matches(part).count(), 1, "{part}");
    text.find(part).unwrap()
}

/// Each printed sample has brackets at a page's end that close too much. It is
/// refused at one of them, or at what comes behind.
#[test]
fn as_printed_each_is_refused_for_surplus_brackets() {
    // `Figure` is closed before `Bones`.
    let figure = text("sample01.bac");
    let place = close_before(&figure, "( Bones", 0);
    assert_eq!(figure_listing(&figure), format!("refused\t5\t{place}\n"));
    // `Vertices` and `Figure` are closed before `normals`.
    let figure = text("sample02.bac");
    let place = close_before(&figure, "( normals", 1);
    assert_eq!(figure_listing(&figure), format!("refused\t5\t{place}\n"));
    // One bracket too many at the end.
    let movement = text("sample01.tra");
    let place = movement.iter().rposition(|&byte| byte == b')').unwrap();
    assert_eq!(
        movement_listing(&movement),
        format!("refused\t5\t{place}\n")
    );
    // The bone, which may lack the other channels, and `Figure` are closed
    // before `scale.x`.
    let movement = text("sample02.tra");
    let place = offset(&movement, "( scale.x");
    assert_eq!(
        movement_listing(&movement),
        format!("refused\t5\t{place}\n")
    );
    // `Figure` is closed before `DynamicPolygons`.
    let movement = text("sample03.tra");
    let place = offset(&movement, "( DynamicPolygons");
    assert_eq!(
        movement_listing(&movement),
        format!("refused\t5\t{place}\n")
    );
}

#[test]
fn mended_figures_are_taken() {
    let one = figure_listing(&text("mended/sample01.bac"));
    assert!(one.starts_with("figure\t77\nname\t55\t20\n"), "{one}");
    assert!(
        one.ends_with("uv\t1000000\t1000000\nface\t0\t4\t3\t2\t0\t1\t2\t3\t1\t0\t-1\n"),
        "{one}"
    );
    let two = figure_listing(&text("mended/sample02.bac"));
    assert!(
        two.contains("\nface\t1\t4\t3\t2\t0\t1\t-1\t-1\t-1\t-1\t-1\n"),
        "{two}"
    );
    assert!(
        two.contains("\nface\t0\t4\t5\t4\t2\t3\t6\t7\t4\t3\t1\n"),
        "{two}"
    );
    assert_eq!(
        two.lines()
            .filter(|line| line.starts_with("group\t"))
            .count(),
        2
    );
}

#[test]
fn mended_movements_are_taken_and_played() {
    let roll = movement::read(&text("mended/sample01.tra"), 11_779).unwrap();
    let between = Fraction {
        numerator: 225_403_619,
        denominator: 3,
    };
    assert_eq!(sample(&roll, 0, 9, 4), Some(between));
    let turn = movement::read(&text("mended/sample02.tra"), 11_779).unwrap();
    let between = Fraction {
        numerator: 499_988,
        denominator: 1,
    };
    assert_eq!(sample(&turn, 0, 7, 9), Some(between));
    let patterns = movement::read(&text("mended/sample03.tra"), 11_779).unwrap();
    assert_eq!(patterns.patterns.len(), 14);
    assert_eq!(patterns.total(), 3 + 22 + 20 + 42);
}
