#!/usr/bin/env bash
# The table of docs/REFUSALS.md has a row for every number, each definition that it names stands in the file beside it, each vector is there, and
# one of a row's vectors is refused with its number. tests/pages.sh looks up its files, functions and edits.
set -eu
cd "$(dirname "$0")/.."
page=docs/REFUSALS.md
missing=0
tell() { echo "$page: $1"; missing=1; }

for n in $(seq 1 21); do
    grep -q "^| $n | " "$page" || tell "no row for $n"
done

rows=$(grep -E '^\| [0-9]+ \| ' "$page")

# a definition stands before its file
while read -r definition file; do
    grep -qE "^ *(unfoldable )?pub $definition :" "crates/$file" || tell "no definition $definition in $file"
done < <(grep -oE '`[A-Za-z_]+` `[a-z0-9_]+/specs/[A-Za-z]+\.antt`' <<<"$rows" | tr -d '`')

# each vector is there, and one of a row's is refused with its number
while read -r row; do
    number=$(grep -oE '[0-9]+' <<<"$row" | head -n 1)
    seen=0
    while read -r label; do
        answer=$(grep -hF -e "\"$label\"	" crates/vectors/stdout || grep "^$label	" crates/pair_vectors/stdout) || tell "no vector $label"
        ! grep -qE "	refused	$number(	|\$)" <<<"$answer" || seen=1
    done < <(grep -oE '"[^"]+"' <<<"$row" | tr -d '"')
    [ "$seen" -eq 1 ] || tell "no vector refused with $number"
done <<<"$rows"

[ "$missing" -eq 0 ] || exit 1
echo "refusals: 21 rows, $(grep -oE '"[^"]+"' <<<"$rows" | wc -l) vectors found"
