#!/bin/sh
# Draws the pictures of docs/pictures: one of each schedule in examples/, and one of the accident that a wrong engine makes of the first.
#
#     ./timeline examples/listing.txt >/dev/null
#     cargo build --release --features stale_store --manifest-path tests/accident/Cargo.toml --target-dir target/accident
#     tools/pictures.sh target/view/release/timeline target/accident/release/accident docs/pictures
#
# The gate draws them anew and compares (tests/pictures.sh).
set -u
if [ $# -ne 3 ]; then
    echo 'usage: tools/pictures.sh TIMELINE ACCIDENT FOLDER' >&2
    exit 2
fi
timeline=$1 accident=$2 folder=$3
examples=$(dirname "$0")/../examples
mkdir -p "$folder" || exit 1

# A file with several schedules has a picture of each. Ranks, where there are any, are in a file beside it.
for schedule in "$examples"/*.txt; do
    name=$(basename "$schedule" .txt)
    schedules=$(grep -c '^L' "$schedule")
    ranks=0
    [ ! -f "$examples/$name.ranks" ] || ranks=$(cat "$examples/$name.ranks")
    if [ "$schedules" -eq 1 ]; then
        "$timeline" --svg --ranks "$ranks" "$schedule" >"$folder/$name.svg" || exit 1
        continue
    fi
    for number in $(seq "$schedules"); do
        "$timeline" --svg --ranks "$ranks" --schedule "$number" "$schedule" >"$folder/$name-$number.svg" || exit 1
    done
done
# Of the longest the end is drawn.
work=$(mktemp -d) || exit 1
trap 'rm -rf "$work"' EXIT
"$examples/to-the-limit.sh" >"$work/to-the-limit.txt"
lines=$(wc -l <"$work/to-the-limit.txt")
"$timeline" --svg --lines "$((lines - 10))-" "$work/to-the-limit.txt" >"$folder/to-the-limit.svg" || exit 1
"$accident" --svg "$examples/cancelled-before-store.txt" >"$folder/cancelled-before-store-wrong.svg" || exit 1
