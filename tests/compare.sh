#!/usr/bin/env bash
# The programs against the independent reader and player: the papers' samples, sound and damaged texts and pairs, and the time;
# and each program's answers without notes and with them.
# It runs the programs that rt ci proved and built, or rt run in a program's folder. It needs cargo and rustc, and no network.
set -eu
cd "$(dirname "$0")/.."

figures=${LISTING:-crates/listing/out/listing}
movements=${MOVEMENT_LISTING:-crates/movement_listing/out/movement_listing}
corners=${CORNERS:-crates/corners/out/corners}
samples=${SAMPLES:-crates/samples/out/samples}
pair=${PAIR:-crates/pair/out/pair}
shown=${SHOWN:-crates/shown/out/shown}
why=${WHY:-crates/why/out/why}
for program in "$figures" "$movements" "$corners" "$samples" "$pair" "$shown" "$why"; do
    [ -x "$program" ] || { echo "$program is not there to run: rt ci builds it"; exit 1; }
done

export CARGO_TARGET_DIR=target/independent
cargo build --quiet --release --offline --manifest-path independent/Cargo.toml

programs=$CARGO_TARGET_DIR/release
compare_kind() { # PROGRAM KIND
    "$programs/compare" "$1" "samples-$2"
    "$programs/compare" "$1" "sound-$2" 1 1000
    "$programs/compare" "$1" "damaged-$2" 2 3000
    "$programs/measure" "$1" "$2"
}
compare_kind "$figures" figures
compare_kind "$movements" movements

play_kind() { # PROGRAM KIND MEASURED
    "$programs/compare" --play "$1" "samples-$2"
    "$programs/compare" --play "$1" "sound-$2" 3 200
    "$programs/compare" --play "$1" "damaged-$2" 4 300
    "$programs/measure" "$1" "$3"
}
play_kind "$corners" figures corners
play_kind "$samples" movements play

pair_kind() { # HOW PROGRAM MEASURED
    "$programs/compare" "$1" "$2" sound-pairs 5 200
    "$programs/compare" "$1" "$2" damaged-pairs 6 300
    "$programs/measure" "$2" "$3"
}
pair_kind --pair "$pair" pairs
pair_kind --play "$shown" shown
pair_kind --why "$why" why

notes_kind() { # KIND [HOW] PROGRAM
    kind=$1
    shift
    "$programs/compare" --notes "$@" "sound-$kind" 7 500
    "$programs/compare" --notes "$@" "damaged-$kind" 8 500
}
notes_kind figures "$figures"
notes_kind figures --play "$corners"
notes_kind movements "$movements"
notes_kind movements --play "$samples"
notes_kind pairs --pair "$pair"
notes_kind pairs --play "$shown"
notes_kind pairs --why "$why"
