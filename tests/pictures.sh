#!/bin/sh
# The pictures of docs/pictures, drawn anew and compared; that the documents show or link each of them; and how long a schedule of 10,000 lines takes.
# tests/pictures.sh PROGRAMS, the folder of timeline, accident and make_schedule; the last line is 'N passed, M failed'.
set -u
. "$(dirname "$0")/counting.sh"
if [ $# -ne 1 ]; then
    echo "usage: tests/pictures.sh PROGRAMS"
    exit 2
fi
programs=$1
here=$(cd "$(dirname "$0")/.." && pwd -P) || exit 2
work=$(mktemp -d) || exit 2
trap 'rm -rf "$work"' EXIT

check 'all are drawn' "$("$here/tools/pictures.sh" "$programs/timeline" "$programs/accident" "$work/pictures" 2>&1 && echo drawn)" drawn
check 'those that there are' "$(ls "$work/pictures")" "$(ls "$here/docs/pictures")"
for picture in "$here"/docs/pictures/*.svg; do
    name=$(basename "$picture")
    check "$name is what is drawn" "$(cmp "$picture" "$work/pictures/$name" 2>&1 && echo same)" same
    check "$name is linked" "$(grep -c "(../docs/pictures/$name)" "$here/examples/README.md")" 1
done
for name in cancelled-before-store cancelled-before-store-wrong; do
    check "$name is shown" "$(grep -c "!\[.*\](docs/pictures/$name.svg)" "$here/README.md")" 1
done
# The wrong engine's picture says what it is, on the picture itself.
warned() { grep -c '<text class="warning".*WRONG ON PURPOSE' "$1"; }
check 'the wrong one is marked' "$(warned "$here/docs/pictures/cancelled-before-store-wrong.svg")" 1
check 'the right one is not' "$(warned "$here/docs/pictures/cancelled-before-store.svg")" 0

# By the processor's time, which depends less on what else runs than the clock does.
"$programs/make_schedule" 9967 32 64 1 2 >"$work/long.txt"
check 'lines of the long one' "$(wc -l <"$work/long.txt")" 10000
cat >"$work/timed.py" <<'PYTHON'
import resource, subprocess, sys
subprocess.run(sys.argv[1:], stdout=subprocess.DEVNULL, check=True)
used = resource.getrusage(resource.RUSAGE_CHILDREN)
print('in time' if used.ru_utime + used.ru_stime < 2 else used)
PYTHON
for kind in '' --svg; do
    check "10,000 lines $kind" "$(python3 "$work/timed.py" "$programs/timeline" $kind "$work/long.txt" 2>&1)" 'in time'
done
finish
