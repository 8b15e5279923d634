#!/bin/sh
# Every schedule of examples/, through the proved replay and report and the second ones, byte for byte; where an output is stored, against that too.
# tests/examples.sh PROVED SECOND, folders of replay and report, and of reference_replay and reference_report; the last line is 'N passed, M failed'.
set -u
. "$(dirname "$0")/counting.sh"
if [ $# -ne 2 ]; then
    echo "usage: tests/examples.sh PROVED SECOND"
    exit 2
fi
proved=$1 second=$2
programs_there "$proved" "$second" || exit 2
examples=$(dirname "$0")/../examples
work=$(mktemp -d) || exit 2
trap 'rm -rf "$work"' EXIT

# The stored output is the report's where there are several schedules in the file, and the replay's where there is one.
stored_by() { if [ "$(grep -c '^L' "$1")" -gt 1 ]; then echo report; else echo replay; fi; }

"$examples/to-the-limit.sh" >"$work/to-the-limit.txt"
for schedule in "$examples"/*.txt "$work/to-the-limit.txt"; do
    for name in replay report; do
        "$proved/$name" <"$schedule" >"$work/found"
        "$second/reference_$name" <"$schedule" >"$work/expected"
        verdict=different
        [ -s "$work/expected" ] && cmp "$work/found" "$work/expected" && verdict=same
        stored=${schedule%.txt}.expected
        [ ! -f "$stored" ] || [ "$(stored_by "$schedule")" != $name ] || cmp "$work/found" "$stored" || verdict=different
        check "$name: $(basename "$schedule")" "$verdict" same
    done
done
finish
