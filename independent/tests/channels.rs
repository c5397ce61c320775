//! Channels left out: which bones are taken, how they are listed, and what
//! their channels answer.

mod common;

use common::{movement_refusal, movement_stops, refusal, FIGURE};
use independent::generate::movement::CHANNELS;
use independent::listing::{
    movement_listing, movement_rows, pair_listing, sample_listing, shown_listing,
};
use independent::movement::{self, Movement};
use independent::play::{sample, Fraction};
use independent::{limits, many};

/// 004's standing pose, in units.
const STANDING: [i64; 10] = [0, 0, 0, 100, 100, 100, 0, 0, 1, 0];

/// A movement of so many frames up to these bones, `Figure` still open.
fn up_to_bones(total_frames: i64, bones: &str) -> String {
    format!(";TRA\n(Head(traVersion 4.0))(Figure(totalFrame {total_frames}){bones}")
}

/// A movement of so many frames that has these bones.
fn of_bones(total_frames: i64, bones: &str) -> String {
    up_to_bones(total_frames, bones) + ")"
}

fn read(text: &str) -> Movement {
    movement::read(text.as_bytes(), limits::MOVEMENT_ROOM).unwrap()
}

/// The listing with spaces for tabs.
fn listed(text: &str) -> String {
    movement_listing(text.as_bytes()).replace('\t', " ")
}

/// A whole number of units as a sample.
fn units(value: i64) -> Option<Fraction> {
    Some(Fraction {
        numerator: 1_000_000 * value,
        denominator: 1,
    })
}

/// Every channel of a bone has these values at a frame, in units.
fn has_pose(movement: &Movement, bone: i64, frame: i64, pose: [i64; 10]) {
    for (channel, value) in (0..).zip(pose) {
        let found = sample(movement, bone, channel, frame);
        assert_eq!(found, units(value), "{bone} {channel} {frame}");
    }
}

#[test]
fn a_bone_without_channels() {
    let text = ";TRA\n(Head(traVersion 4.0))(Figure(totalFrame 1)(bone))";
    let movement = read(text);
    let rows = movement_rows(&movement);
    let numbers: Vec<i64> = rows.into_iter().flat_map(|row| row.1).collect();
    assert_eq!(numbers, [&[1][..], &[0; 24]].concat());
    assert_eq!(
        listed(text),
        "movement 25\nframes 1\nname 0 0\n\
         bone 0 0 0 0 0 0 0 0 0 0 0 0 0 0 0 0 0 0 0 0 0 0\n"
    );
    let samples = [
        "sample 0 0 0 0 1\n",
        "sample 0 1 0 0 1\n",
        "sample 0 2 0 0 1\n",
        "sample 0 3 0 100000000 1\n",
        "sample 0 4 0 100000000 1\n",
        "sample 0 5 0 100000000 1\n",
        "sample 0 6 0 0 1\n",
        "sample 0 7 0 0 1\n",
        "sample 0 8 0 1000000 1\n",
        "sample 0 9 0 0 1\n",
    ];
    let printed = sample_listing(text.as_bytes()).replace('\t', " ");
    assert_eq!(printed, samples.concat());
    for (bone, channel, frame) in [(0, 3, 1), (0, 3, -1), (1, 3, 0), (0, 10, 0), (0, -1, 0)] {
        assert_eq!(sample(&movement, bone, channel, frame), None);
    }
}

#[test]
fn a_named_bone_without_channels() {
    let text = of_bones(1, "(bone(name \"b\"))");
    let name = text.find("b\"").unwrap();
    assert_eq!(
        listed(&text),
        format!(
            "movement 25\nframes 1\nname 0 0\n\
             bone {name} 1 0 0 0 0 0 0 0 0 0 0 0 0 0 0 0 0 0 0 0 0\n"
        )
    );
    has_pose(&read(&text), 0, 0, STANDING);
}

#[test]
fn nine_channels_and_no_roll() {
    let bone: String = CHANNELS[..9]
        .iter()
        .map(|channel| format!("({channel}(kf 0 2))"))
        .collect();
    let text = of_bones(2, &format!("(bone{bone})"));
    let keys = "key 0 2000000\n".repeat(9);
    assert_eq!(
        listed(&text),
        format!(
            "movement 43\nframes 2\nname 0 0\n\
             bone 0 0 0 1 1 1 2 1 3 1 4 1 5 1 6 1 7 1 8 1 0 0\n{keys}"
        )
    );
    let mut pose = [2; 10];
    pose[9] = 0;
    has_pose(&read(&text), 0, 1, pose);
}

/// It has a key row all the same, and answers like one that is left out.
#[test]
fn a_channel_written_at_its_default_is_kept() {
    let text = of_bones(2, "(bone(scale.x(kf 0 100)))");
    assert_eq!(
        listed(&text),
        "movement 27\nframes 2\nname 0 0\n\
         bone 0 0 0 0 0 0 0 0 0 1 0 0 0 0 0 0 0 0 0 0 0 0\nkey 0 100000000\n"
    );
    let samples = |text: &str| sample_listing(text.as_bytes());
    assert_eq!(samples(&text), samples(&of_bones(2, "(bone)")));
    let text = of_bones(3, "(bone(roll(kf 0 0)(kf 2 0))(rotate.z(kf 0 1e0)))");
    assert_eq!(
        listed(&text),
        "movement 31\nframes 3\nname 0 0\n\
         bone 0 0 0 0 0 0 0 0 0 0 0 0 0 0 0 0 0 0 0 1 1 2\n\
         key 0 1000000\nkey 0 0\nkey 2 0\n"
    );
    assert_eq!(samples(&text), samples(&of_bones(3, "(bone)")));
}

/// Before, between and behind those that stand; their order is free still.
#[test]
fn channels_left_out_between_others() {
    let channels = [
        "(translate.y(kf 0 1)(kf 2 3))",
        "(scale.z(kf 0 50))",
        "(rotate.y(kf 0 0)(kf 1 5)(kf 2 -5))",
    ];
    for order in [[0, 1, 2], [2, 1, 0], [1, 2, 0]] {
        let chunks = order.map(|channel| channels[channel]).concat();
        let text = of_bones(3, &format!("(bone{chunks})"));
        assert_eq!(
            listed(&text),
            "movement 37\nframes 3\nname 0 0\n\
             bone 0 0 0 0 0 2 0 0 0 0 0 0 2 1 0 0 3 3 0 0 0 0\n\
             key 0 1000000\nkey 2 3000000\nkey 0 50000000\n\
             key 0 0\nkey 1 5000000\nkey 2 -5000000\n"
        );
        let mut pose = STANDING;
        (pose[1], pose[5], pose[7]) = (2, 50, 5);
        has_pose(&read(&text), 0, 1, pose);
    }
}

#[test]
fn later_bones_count_on() {
    let bones = "(bone(scale.x(kf 0 1))(roll(kf 0 7)(kf 3 9)))(bone)\
                 (bone(translate.x(kf 0 4))(rotate.z(kf 0 5)))(bone(roll(kf 0 6)))";
    assert_eq!(
        listed(&of_bones(4, bones)),
        "movement 103\nframes 4\nname 0 0\n\
         bone 0 0 0 0 0 0 0 0 0 1 0 0 0 0 0 0 0 0 0 0 1 2\n\
         bone 0 0 0 0 0 0 0 0 0 0 0 0 0 0 0 0 0 0 0 0 0 0\n\
         bone 0 0 3 1 0 0 0 0 0 0 0 0 0 0 0 0 0 0 4 1 0 0\n\
         bone 0 0 0 0 0 0 0 0 0 0 0 0 0 0 0 0 0 0 0 0 5 1\n\
         key 0 1000000\nkey 0 7000000\nkey 3 9000000\n\
         key 0 4000000\nkey 0 5000000\nkey 0 6000000\n"
    );
}

#[test]
fn the_default_at_every_frame_below_the_total() {
    let movement = read(&of_bones(32_767, "(bone)(bone(scale.y(kf 0 1)(kf 9 2)))"));
    for frame in [0, 1, 9, 32_766] {
        has_pose(&movement, 0, frame, STANDING);
        assert_eq!(sample(&movement, 1, 3, frame), units(100));
    }
    for frame in [-1, 32_767] {
        assert!((0..10).all(|channel| sample(&movement, 0, channel, frame).is_none()));
    }
}

/// A channel of one to three keys: its number, and then 10 more than that.
fn written(channel: usize) -> String {
    let more: String = (1..=channel % 3)
        .map(|frame| format!("(kf {frame} {})", 10 + channel))
        .collect();
    format!("({}(kf 0 {channel}){more})", CHANNELS[channel])
}

/// The pairs of a bone with such channels where these stand, behind two keys.
fn pairs(stands: impl Fn(&usize) -> bool) -> Vec<i64> {
    let mut pairs = Vec::new();
    let mut next_row = 2;
    for channel in 0..10 {
        if stands(&channel) {
            let count = 1 + channel as i64 % 3;
            pairs.extend([next_row, count]);
            next_row += count;
        } else {
            pairs.extend([0, 0]);
        }
    }
    pairs
}

/// Every set of channels, written by number and the other way about.
#[test]
fn every_set_of_channels() {
    for set in 0..1_024 {
        let stands = |channel: &usize| set & (1 << channel) != 0;
        let mut chunks: Vec<String> = (0..10).filter(stands).map(written).collect();
        let pose = std::array::from_fn(|channel| match (stands(&channel), channel % 3) {
            (false, _) => STANDING[channel],
            (true, 0) => channel as i64,
            (true, _) => 10 + channel as i64,
        });
        for _ in 0..2 {
            let bones = format!("(bone(scale.z(kf 0 8)(kf 1 9)))(bone{})", chunks.concat());
            let movement = read(&of_bones(3, &bones));
            let row = &movement_rows(&movement)[3].1;
            assert_eq!(row[..2], [0, 0]);
            assert_eq!(row[2..], pairs(stands), "{bones}");
            has_pose(&movement, 1, 2, pose);
            chunks.reverse();
        }
    }
}

/// A movement up to these chunks of its bone, which is still open.
fn open_bone(chunks: &str) -> String {
    up_to_bones(9, &format!("(bone{chunks}"))
}

/// A channel that is not this one.
fn another(channel: &str) -> &'static str {
    match channel {
        "roll" => "scale.x",
        _ => "roll",
    }
}

#[test]
fn a_channel_without_a_key() {
    for channel in CHANNELS {
        movement_stops(&open_bone(&format!("({channel}")), ")))", 5);
        movement_stops(&open_bone(&format!("({channel}(")), "))))", 5);
        let before = open_bone(&format!("({channel}(kf 0 1))({}", another(channel)));
        movement_stops(&before, ")))", 5);
    }
    // One channel within another.
    movement_stops(&open_bone("(scale.x("), "scale.y(kf 0 1)))))", 5);
}

#[test]
fn a_channel_repeated() {
    for channel in CHANNELS {
        let one = format!("({channel}(kf 0 1))");
        let again = format!("{channel}(kf 0 1))))");
        movement_stops(&(open_bone(&one) + "("), &again, 5);
        let two = format!("{one}({}(kf 0 1))", another(channel));
        movement_stops(&(open_bone(&two) + "("), &again, 5);
    }
    // In another bone it is no repetition.
    let bones = "(bone(roll(kf 0 1)))(bone(roll(kf 0 2)))";
    assert_eq!(movement_refusal(of_bones(1, bones)), None);
}

/// Behind all ten no chunk may open; behind nine it is its keyword that counts.
#[test]
fn an_eleventh_chunk() {
    let chunks: Vec<String> = (0..10).map(written).collect();
    for last in ["roll(kf 0 1))", "name \"b\")", "scale)", "bone)", ")"] {
        movement_stops(&open_bone(&chunks.concat()), &format!("({last}))"), 5);
        let nine = open_bone(&chunks[1..].concat()) + "(";
        movement_stops(&nine, &format!("{last}))"), 5);
    }
}

#[test]
fn what_is_no_channel() {
    for before in [
        "",
        "(name \"b\")",
        "(roll(kf 0 1))",
        "(name \"\")(scale.y(kf 0 1))",
    ] {
        let before = open_bone(before);
        for keyword in [
            "translate",
            "scale",
            "rotate.w",
            "Roll",
            "roll.x",
            "kf",
            "kgf",
            "bone",
            "totalFrame",
            "hasChild",
            "0",
        ] {
            let after = format!("{keyword}(kf 0 1))))");
            movement_stops(&(before.clone() + "("), &after, 5);
        }
        for token in [")))", "()))", "\"roll\"(kf 0 1))))"] {
            movement_stops(&(before.clone() + "("), token, 5);
        }
        for token in ["roll))", "\"b\"))", "0))"] {
            movement_stops(&(before.clone() + " "), token, 5);
        }
        movement_stops(&before, "", 5);
    }
}

#[test]
fn a_name_comes_first_only() {
    let name = "name \"b\")))";
    movement_stops(&(open_bone("(roll(kf 0 1))") + "("), name, 5);
    movement_stops(&(open_bone("(name \"b\")") + "("), name, 5);
    movement_stops(&(open_bone("(name \"b\")(roll(kf 0 1))") + "("), name, 5);
}

#[test]
fn a_channel_behind_its_bone() {
    let roll = "roll(kf 0 1)))";
    for bone in ["(bone)(", "(bone(name \"b\"))(", "(bone(scale.x(kf 0 1)))("] {
        movement_stops(&up_to_bones(9, bone), roll, 5);
    }
    // There is one bone at least still.
    movement_stops(&up_to_bones(9, ""), ")", 5);
}

#[test]
fn rows_at_their_most() {
    let bones = |count: usize| of_bones(1, &"(bone)".repeat(count));
    assert_eq!(movement_refusal(bones(128)), None);
    assert_eq!(read(&bones(128)).total(), 3 + 22 * 128);
    assert_eq!(movement_refusal(bones(129)), refusal(8, 0));
    let keys = |count: usize| {
        let keys: String = (0..count).map(|frame| format!("(kf {frame} 0)")).collect();
        of_bones(5_000, &format!("(bone)(bone(scale.x{keys}))(bone)"))
    };
    assert_eq!(movement_refusal(keys(4_096)), None);
    assert_eq!(read(&keys(4_096)).total(), 3 + 22 * 3 + 2 * 4_096);
    assert_eq!(movement_refusal(keys(4_097)), refusal(8, 1));
}

/// A channel that is left out has no key row, so none is counted for it.
#[test]
fn the_row_of_a_key_at_fault() {
    for (bones, row) in [
        ("(bone(roll(kf 1 0)))", 0),
        ("(bone(roll(kf 0 0)(kf 0 0)))", 1),
        ("(bone(roll(kf 1 0))(scale.y(kf 0 0)))", 1),
        ("(bone)(bone(scale.x(kf 0 0)(kf 9 0)))", 1),
        (
            "(bone(roll(kf 0 0)(kf 2 0)))(bone)(bone(rotate.x(kf 3 0)))",
            2,
        ),
    ] {
        let text = of_bones(9, bones);
        assert_eq!(movement_refusal(text), refusal(15, row), "{bones}");
    }
}

#[test]
fn the_other_rules_stay() {
    assert_eq!(movement_refusal(of_bones(0, "(bone)")), refusal(14, 0));
    assert_eq!(movement_refusal(of_bones(32_768, "(bone)")), refusal(14, 0));
    let lines = "(bone)(DynamicPolygons(kgf 1 0 true))";
    assert_eq!(movement_refusal(of_bones(2, lines)), refusal(16, 0));
    assert_eq!(movement_refusal(of_bones(0, lines)), refusal(14, 0));
    let many = "(bone)".repeat(129);
    assert_eq!(movement_refusal(of_bones(0, &many)), refusal(8, 0));
    let text = of_bones(1, "(bone)");
    assert!(movement::read(text.as_bytes(), 25).is_ok());
    let short = movement::read(text.as_bytes(), 24);
    assert_eq!(short.err(), refusal(17, 25));
}

#[test]
fn pairs_of_bones_without_channels() {
    let of = |bones: &str| many::pair(FIGURE.as_bytes(), of_bones(1, bones).as_bytes());
    assert_eq!(pair_listing(&of("(bone)")), "pair\t57\t25\nlabel\t0\t\n");
    assert_eq!(
        pair_listing(&of("(bone(name \"b\"))")),
        "pair\t57\t25\nlabel\t0\tb\n"
    );
    assert_eq!(shown_listing(&of("(bone)")), "shown\t0\t0\t0\n");
    assert_eq!(pair_listing(&of("(bone)(bone)")), "refused\t18\t2\t2\n");
}
