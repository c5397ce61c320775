//! Pairs: refusals 18 to 20, the order of all refusals, the figure's record,
//! and the names of bones.

mod common;

use common::{changed, figure_of, movement_of, Names, FIGURE, MOVEMENT};
use independent::listing::{pair_listing, shown_listing, why_listing};
use independent::many;
use independent::pair::{load, PairRefusal};
use independent::refusal::Refusal;

fn pair(figure: &str, movement: &str) -> Option<PairRefusal> {
    load(figure.as_bytes(), movement.as_bytes(), 8_192, 11_779).err()
}

fn refused(number: u8, place: usize, file: u8) -> Option<PairRefusal> {
    let refusal = Refusal::new(number, place);
    Some(PairRefusal { file, refusal })
}

#[test]
fn eighteen_bone_counts() {
    let of_counts = |figure: usize, movement: usize| {
        pair(
            &figure_of(&vec![None; figure], 0),
            &movement_of(&vec![None; movement], ""),
        )
    };
    for count in [1, 2, 3] {
        assert_eq!(of_counts(count, count), None);
    }
    assert_eq!(of_counts(1, 2), refused(18, 2, 2));
    assert_eq!(of_counts(2, 1), refused(18, 1, 2));
    assert_eq!(of_counts(3, 5), refused(18, 5, 2));
    assert_eq!(of_counts(128, 127), refused(18, 127, 2));
    assert_eq!(of_counts(127, 128), refused(18, 128, 2));
}

fn of_names(ours: &Names, theirs: &Names) -> Option<PairRefusal> {
    pair(&figure_of(ours, 0), &movement_of(theirs, ""))
}

/// Alike, or one of the two absent or empty.
#[test]
fn nineteen_names_that_go_together() {
    for name in ["a", "A b;()", &"n".repeat(255)] {
        let name = Some(name);
        for (ours, theirs) in [
            (name, name),
            (name, None),
            (None, name),
            (name, Some("")),
            (Some(""), name),
            (Some(""), Some("")),
            (Some(""), None),
            (None, Some("")),
            (None, None),
        ] {
            assert_eq!(of_names(&[ours], &[theirs]), None, "{ours:?} {theirs:?}");
            assert_eq!(of_names(&[None, ours], &[None, theirs]), None);
        }
    }
}

#[test]
fn nineteen_names_that_differ() {
    let long = ["x".repeat(255), "x".repeat(254) + "y", "x".repeat(254)];
    for (ours, theirs) in [
        ("a", "b"),
        ("a", "A"),
        ("a", "aa"),
        ("ab", "a"),
        ("ab", "ac"),
        ("ab", "cb"),
        ("abc", "adc"),
        ("a", "a "),
        (" ", "a"),
        (&long[0], &long[1]),
        (&long[0], &long[2]),
    ] {
        let (ours, theirs) = (Some(ours), Some(theirs));
        assert_eq!(of_names(&[ours], &[theirs]), refused(19, 0, 2));
        assert_eq!(of_names(&[theirs], &[ours]), refused(19, 0, 2));
        let (ours, theirs) = ([Some("s"), None, ours], [Some("s"), Some("t"), theirs]);
        assert_eq!(of_names(&ours, &theirs), refused(19, 2, 2));
    }
    // The lowest row, and row by row: the same names in another order.
    let ours = [None, Some("b"), Some("c")];
    assert_eq!(
        of_names(&ours, &[Some("a"), Some("c"), Some("b")]),
        refused(19, 1, 2)
    );
}

#[test]
fn twenty_groups() {
    let of_groups = |groups: usize, lines: &str| {
        pair(&figure_of(&[None], groups), &movement_of(&[None], lines))
    };
    let zero = "(kgf 0 0 true)";
    let one = "(kgf 0 1 true)";
    assert_eq!(of_groups(0, ""), None);
    assert_eq!(of_groups(0, zero), refused(20, 0, 2));
    assert_eq!(of_groups(1, zero), None);
    assert_eq!(of_groups(1, one), refused(20, 0, 2));
    assert_eq!(of_groups(2, one), None);
    assert_eq!(of_groups(1, &[zero, zero, one].concat()), refused(20, 2, 2));
    // The lowest row, not the lowest group.
    let lines = [zero, "(kgf 3 9 false)(kgf 3 1 true)"].concat();
    assert_eq!(of_groups(1, &lines), refused(20, 1, 2));
    assert_eq!(of_groups(9, &lines), refused(20, 1, 2));
    assert_eq!(of_groups(10, &lines), None);
    let most = "(kgf 0 31 true)";
    assert_eq!(of_groups(32, most), None);
    assert_eq!(of_groups(31, most), refused(20, 0, 2));
    assert_eq!(of_groups(32, "(kgf 0 32 true)"), refused(20, 0, 2));
    assert_eq!(of_groups(32, "(kgf 0 2147483647 true)"), refused(20, 0, 2));
    // The figure of the listing has no `DynamicPolygons`.
    assert_eq!(pair(FIGURE, MOVEMENT), refused(20, 0, 2));
    assert_eq!(pair(FIGURE, &movement_of(&[None], "")), None);
}

#[test]
fn the_pairs_own_refusals_in_order() {
    let ours = [Some("a"), Some("b")];
    let theirs = [Some("a"), Some("c"), None];
    let bad = "(kgf 0 0 true)(kgf 1 1 true)";
    let of = |theirs: &Names, lines: &str| pair(&figure_of(&ours, 1), &movement_of(theirs, lines));
    assert_eq!(of(&theirs, bad), refused(18, 3, 2));
    assert_eq!(of(&theirs[..1], bad), refused(18, 1, 2));
    assert_eq!(of(&theirs[1..2], ""), refused(18, 1, 2));
    assert_eq!(of(&theirs[..2], bad), refused(19, 1, 2));
    assert_eq!(of(&ours, bad), refused(20, 1, 2));
    assert_eq!(of(&ours, "(kgf 0 0 true)"), None);
}

/// The figure's refusals come first, then the movement's, then the pair's.
#[test]
fn the_order_of_the_files() {
    let rooms = |figure: &str, movement: &str, rooms: [usize; 2]| {
        load(figure.as_bytes(), movement.as_bytes(), rooms[0], rooms[1]).err()
    };
    // The movement has a bone too many, and a pattern too many.
    let figure = figure_of(&[None], 1);
    let movement = movement_of(&[None; 2], "(kgf 0 1 true)");
    let totals = [59, 3 + 2 * 22 + 2 * 24 + 3];
    assert_eq!(rooms(&figure, &movement, totals), refused(18, 2, 2));
    let [short, less] = [[0, totals[1]], [totals[0], totals[1] - 1]];
    assert_eq!(rooms(&figure, &movement, less), refused(17, totals[1], 1));
    assert_eq!(rooms(&figure, &movement, short), refused(17, 59, 0));
    assert_eq!(rooms(&figure, "", short), refused(17, 59, 0));
    assert_eq!(
        rooms(&figure, &" ".repeat(65_537), short),
        refused(17, 59, 0)
    );

    let late = changed(&movement, "(kgf 0 1 true)", "(kgf 0 -1 true)");
    assert_eq!(pair(&figure, &late), refused(16, 0, 1));
    let early = late + "x";
    assert_eq!(pair(&figure, &early), refused(5, early.len() - 1, 1));
    assert_eq!(pair(&figure, ""), refused(2, 0, 1));
    assert_eq!(pair(&figure, &" ".repeat(65_537)), refused(1, 0, 1));
    let bad = changed(&figure, "(i3 0 1 2)", "(i3 0 1 3)");
    for movement in [&movement, &early, "", &" ".repeat(65_537)] {
        assert_eq!(pair(&bad, movement), refused(13, 0, 0));
    }
    assert_eq!(pair("", ""), refused(2, 0, 0));
    assert_eq!(pair(&" ".repeat(65_537), ""), refused(1, 0, 0));
    // Each text in the place of the other.
    assert_eq!(pair(&movement, &figure), refused(2, 0, 0));
    assert_eq!(pair(&figure, &figure), refused(2, 0, 1));
}

/// What every program of a pair prints of an input that is refused.
fn all_print(input: &[u8], expected: &str) {
    assert_eq!(pair_listing(input), expected);
    assert_eq!(shown_listing(input), expected);
    assert_eq!(why_listing(input), expected);
}

#[test]
fn heads() {
    let figure = figure_of(&[Some("a")], 2);
    let rest = figure.clone() + MOVEMENT;
    let of_head = |head: &str| (head.to_string() + &rest).into_bytes();
    let right = format!("{:08}\n", figure.len());
    let taken = "pair\t61\t55\nlabel\t0\ta\n";
    assert_eq!(pair_listing(&of_head(&right)), taken);

    let first_line = "refused\t2\t0\t0\n";
    let digits = &right[..8];
    for head in [
        String::new(),
        "\n".into(),
        digits.into(),
        digits.to_string() + "\r",
        digits.to_string() + " ",
        digits.to_string() + "\r\n",
        digits.to_string() + "0\n",
        digits[1..].to_string() + "\n",
        format!("0{right}"),
        format!(" {}\n", &digits[1..]),
        format!("+{}\n", &digits[1..]),
        format!("-{}\n", &digits[1..]),
        format!("{}a\n", &digits[..7]),
        format!("{}/\n", &digits[..7]),
        format!("{}:\n", &digits[..7]),
    ] {
        all_print(&of_head(&head), first_line);
    }
    // An input that ends in its head.
    for length in 0..=9 {
        all_print(&right.as_bytes()[..length], first_line);
    }
    all_print(b"\xff", first_line);

    // Up to the input's end and past it.
    let of_length = |length: usize| of_head(&format!("{length:08}\n"));
    all_print(&of_length(rest.len() + 1), first_line);
    all_print(&of_length(65_536), first_line);
    all_print(&of_length(65_537), first_line);
    all_print(&of_length(99_999_999), first_line);
    let word = format!("refused\t5\t{}\t0\n", rest.find("(Head(tra").unwrap());
    all_print(&of_length(rest.len()), &word);
    all_print(&of_length(0), first_line);
    all_print(b"00000000\n", first_line);
    all_print(b"00000004\n;BAC", "refused\t5\t4\t0\n");

    // The figure without its line feed is taken, and the movement is not.
    all_print(&of_length(figure.len() - 1), "refused\t2\t0\t1\n");
    let cut = format!("refused\t5\t{}\t0\n", figure.len() - 2);
    all_print(&of_length(figure.len() - 2), &cut);
    // The movement's `;` ends the figure as a comment.
    all_print(&of_length(figure.len() + 1), "refused\t2\t0\t1\n");
}

/// Texts of the most bytes, of one more, and of far more.
#[test]
fn long_texts() {
    let filled = |text: &str, length: usize| text.to_string() + &" ".repeat(length - text.len());
    let of = |figure: &str, movement: &str| many::pair(figure.as_bytes(), movement.as_bytes());
    let figure = figure_of(&[None], 2);
    let taken = "pair\t61\t55\nlabel\t0\t\n";
    assert_eq!(pair_listing(&of(&figure, MOVEMENT)), taken);
    let most = filled(&figure, 65_536);
    assert_eq!(pair_listing(&of(&most, MOVEMENT)), taken);
    assert_eq!(pair_listing(&of(&most, &filled(MOVEMENT, 65_536))), taken);
    for length in [65_537, 131_073, 131_074, 131_075, 131_083, 400_000] {
        let long = filled(&figure, length);
        all_print(&of(&long, MOVEMENT), "refused\t1\t0\t0\n");
        all_print(&of(&long, ""), "refused\t1\t0\t0\n");
        // The input ends before the figure does.
        let record = many::record(long.as_bytes());
        all_print(&record[..record.len() - 1], "refused\t2\t0\t0\n");
        let long = filled(MOVEMENT, length);
        all_print(&of(&figure, &long), "refused\t1\t0\t1\n");
        all_print(&of(&most, &long), "refused\t1\t0\t1\n");
        all_print(&of("", &long), "refused\t2\t0\t0\n");
    }
}

/// The movement's name where it has one that is not empty, else the figure's.
#[test]
fn names_of_bones() {
    let name = Some("n; (1)");
    let cases = [
        (name, name, "n; (1)"),
        (name, None, "n; (1)"),
        (name, Some(""), "n; (1)"),
        (None, name, "n; (1)"),
        (Some(""), name, "n; (1)"),
        (Some(""), Some(""), ""),
        (Some(""), None, ""),
        (None, Some(""), ""),
        (None, None, ""),
    ];
    let ours: Vec<_> = cases.iter().map(|case| case.0).collect();
    let theirs: Vec<_> = cases.iter().map(|case| case.1).collect();
    let figure = figure_of(&ours, 0);
    let movement = movement_of(&theirs, "");
    let bones = cases.len();
    let (figure_total, movement_total) = (57 + 14 * (bones - 1), 3 + 22 * bones + 24 * bones);
    let mut expected = format!("pair\t{figure_total}\t{movement_total}\n");
    for (row, case) in cases.iter().enumerate() {
        expected += &format!("label\t{row}\t{}\n", case.2);
    }
    let input = many::pair(figure.as_bytes(), movement.as_bytes());
    assert_eq!(pair_listing(&input), expected);
}
