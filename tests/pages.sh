#!/usr/bin/env bash
# What README and docs/ name is there: files of crates, functions as CRATE::NAME, must-fail edits as CRATE/LABEL; docs/CALLS.md has every call and
# contract as the sources have them; and docs/ARCHITECTURE.md names every crate, and says how many lines of definitions must be believed.
set -eu
cd "$(dirname "$0")/.."
missing=0
tell() { echo "$1"; missing=1; }

names=0
for page in README.md docs/*.md docs/landings/*.md; do
    while read -r name; do
        crate=${name%%[:/]*}
        [ -d "crates/$crate" ] || continue
        names=$((names + 1))
        case $name in
            */*.antt | */*.rt) [ -f "crates/$name" ] || tell "$page: no file $name" ;;
            *::*) grep -qE "(fn|struct|enum|const) ${name##*::}\b" crates/"$crate"/src/*.rt || tell "$page: no $name" ;;
            */*/*) [ -e "crates/$name" ] || tell "$page: no $name" ;;
            */*) [ -f "crates/$crate/must-fail/${name#*/}.edit" ] || tell "$page: no edit $name" ;;
        esac
    done < <(grep -oE '`[a-z0-9_]+(::|/)[A-Za-z0-9_./]+`' "$page" | tr -d '`' | sort -u)
done

tools/calls | diff docs/CALLS.md - || tell "docs/CALLS.md is not what tools/calls prints"

for crate in crates/*/; do
    crate=$(basename "$crate")
    grep -q "\`$crate\`" docs/ARCHITECTURE.md || tell "docs/ARCHITECTURE.md: no crate $crate"
done

lines=$(tools/believed | tail -n 1 | awk '{ printf "%d,%03d lines", $1 / 1000, $1 % 1000 }')
grep -q "$lines of definitions" docs/ARCHITECTURE.md || tell "docs/ARCHITECTURE.md: tools/believed prints $lines"

[ "$missing" -eq 0 ] || exit 1
echo "pages: $names names found, $(grep -c '^### ' docs/CALLS.md) calls and types as the sources have them"
