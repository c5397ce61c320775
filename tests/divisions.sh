#!/usr/bin/env bash
# Sample divides twice and no more, by the common factor (document 02, (v)): read off the code that programs are linked from, in every function that
# Sample calls. It takes the libraries that rt ci proved and built, or rt lib in a crate's folder.
set -eu
cd "$(dirname "$0")/.."

work=$(mktemp -d)
trap 'rm -rf "$work"' EXIT
tools/reached player_samples::sampling::sample > "$work/program" 2> "$work/log" || { cat "$work/log"; exit 1; }

found=$(awk '$1 == "player_samples::sampling::sample" { print $1 } $2 + $4 > 0' "$work/program")
wanted='player_channel::halving::terms 2 divisions 0 remainders
player_samples::sampling::sample'
[ "$found" = "$wanted" ] || { printf 'Sample divides elsewhere than by the common factor:\n%s\n' "$found"; exit 1; }
echo "Sample divides twice, by the common factor"
