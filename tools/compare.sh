#!/usr/bin/env bash
# Compares target/bin/replay with the second code, line for line: tools/compare.sh SEED COUNT [CARD_FILES]
# COUNT scripts of about 100 calls and CARD_FILES card files (default 3 x COUNT) are generated from the seed. Shows what differs.
set -u
cd "$(dirname "$0")/.." || exit 2
seed=${1:?tools/compare.sh SEED COUNT [CARD_FILES]}
count=${2:?tools/compare.sh SEED COUNT [CARD_FILES]}
files=${3:-$((3 * count))}
program=target/bin/replay
[ -x "$program" ] || { echo "no $program: run tools/build replay"; exit 2; }
folder=$(mktemp -d)
trap 'rm -rf "$folder"' EXIT
standard=data/standard-cards.txt

python3 second/generate.py scripts "$seed" "$count" "$folder/scripts" "$standard" || exit 2
python3 second/generate.py cards "$seed" "$files" "$folder/cards" "$standard" || exit 2

lines=0
differing=0
# One script: both answers, and what differs between them.
compare() {
    "$program" <"$1" >"$folder/ours" || echo "ended with $?" >>"$folder/ours"
    python3 second/replay.py <"$1" >"$folder/theirs" || exit 2
    lines=$((lines + $(wc -l <"$folder/theirs")))
    if ! diff "$folder/theirs" "$folder/ours" >"$folder/difference"; then
        differing=$((differing + 1))
        echo "differs: $2"
        cut -c1-300 "$folder/difference" | head -n 10
    fi
}

shopt -s nullglob # none where COUNT is 0
for script in "$folder"/scripts/*.replay; do
    compare "$script" "seed $seed script $(basename "$script" .replay)"
done
compare "$folder/cards/all.replay" "seed $seed card files"

echo "$count scripts and $files card files, $lines lines compared, $differing scripts differ"
[ "$differing" -eq 0 ] && [ "$lines" -gt 0 ]
