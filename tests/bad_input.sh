#!/bin/sh
# Input and output that no schedule has: very long lines, very many of them, noise, damaged headers, an input that does not end, reads and writes
# that fail. The exit status says how a run ended: 0 all read, 3 ended early, 4 read failed, 5 write failed.
# tests/bad_input.sh PROVED SECOND, folders of replay and report, and of reference_replay and reference_report; the last line is 'N passed, M failed'.
set -u
. "$(dirname "$0")/counting.sh"
if [ $# -ne 2 ]; then
    echo "usage: tests/bad_input.sh PROVED SECOND"
    exit 2
fi
proved=$1 second=$2
programs_there "$proved" "$second" || exit 2
work=$(mktemp -d) || exit 2
trap 'rm -rf "$work"' EXIT

# What the programs print of `entering`, a line each: the replay two answers, the report an enter by a free word, of object 1 and in all; and of
# no header the report has the last line alone.
begun='0 1 0 000000 00000000;'
entered="${begun}1 0 0 000100 00000000;"
one=' 0 0 1 0 0 0 0 10000 0 0 0 0 0 0 0;'
nothing=' 0 0 0 0 0 0 0 0 0 0 0 0 0 0 0;'
entering() { printf 'L 1 1 0\nE 1 1\nS 1\n'; }

# What of two is the program's that the variable `name` names: replay or report.
own() { if [ "$name" = replay ]; then echo "$1"; else echo "$2"; fi; }

# told CASE INPUT OF_REPLAY OF_REPORT: what each program prints of what the command INPUT writes, and how its run ended.
told() {
    for name in replay report; do
        found=$("$2" | { timeout 20 "$proved/$name"; echo $? >"$work/ending"; } | tr '\n' ';')
        check "$name: $1" "$found $(cat "$work/ending")" "$(own "$3" "$4")"
    done
}

# same CASE FILE: the proved programs print what the second ones print.
same() {
    for name in replay report; do
        "$proved/$name" <"$2" >"$work/found"
        "$second/reference_$name" <"$2" >"$work/expected"
        if cmp -s "$work/found" "$work/expected"; then check "$name: $1" same same; else check "$name: $1" different same; fi
    done
}

# A line of 100 MB is malformed, costs no memory, and the next line is read.
long_line() { printf 'L 1 1 0\n'; head -c 100000000 /dev/zero | tr '\0' 'E'; printf '\nE 1 1\nS 1\n'; }
told 'a line of 100 MB' long_line "21;$entered 0" "1${one}0$one 0"
long_header() { head -c 100000000 /dev/zero | tr '\0' 'L'; }
told 'a header of 100 MB' long_header '21; 3' "0$nothing 0"

# A million empty lines are a million times 21, and none is lost.
found=$({ printf 'L 1 1 0\n'; yes '' | head -n 1000000; printf 'E 1 1\n'; } | "$proved/replay" | sort | uniq -c | awk '{ printf "%s*%s;", $1, $2 }')
check 'replay: a million empty lines' "$found" '1*0;1000000*21;'

# The report takes 60,000 lines and any number of headers, good and bad. A line more, also one without its newline, and there is no report.
filled() { yes 'L 1 1 0' | head -n 100000; printf 'E 1 1\nS 1\n'; yes L | head -n 100000; yes '' | head -n 59998; }
limit() {
    found=$({ filled; printf "$2"; } | { "$proved/report"; echo $? >"$work/ending"; } | tr '\n' ';')
    check "report: $1" "$found $(cat "$work/ending")" "$3"
}
limit '60,000 lines' '' "1${one}0$one 0"
limit '60,000 lines and a header' 'L 1 1 0\n' "1${one}0$one 0"
limit '60,001 lines' 'x\n' '24; 3'
limit '60,001 lines, the last without its newline' 'x' '24; 3'

# Bytes of all kinds, with and without a good header before them.
awk 'BEGIN { s = 1; for (i = 0; i < 400000; i++) { s = (s * 69069 + 1) % 4294967296; printf "%c", int(s / 65536) % 256 } }' >"$work/noise"
same 'noise' "$work/noise"
{ printf 'L 3 2 1\n'; cat "$work/noise"; } >"$work/headed"
same 'noise behind a header' "$work/headed"

# Headers damaged in one place each, first and between good ones.
for header in '' ' ' 'L' 'L 1 1' 'L 1 1 0 ' ' L 1 1 0' 'L 1 1 2' 'L 01 1 0' 'L 1 1 0 0' 'l 1 1 0' 'L 65536 1 0' 'L 33 1 0' 'L 0 1 0' 'L 1 65 1' 'L	1 1 0' 'E 1 1' 'L 1 1 0\r'; do
    printf "$header\nE 1 1\nS 1\n" >"$work/header"
    same "header '$header'" "$work/header"
    { entering; cat "$work/header"; printf 'L 1 2 1\nE 1 2\nS 1\n'; } >"$work/between"
    same "header '$header' between good ones" "$work/between"
done
printf 'L 1 1 0' >"$work/header"
same 'a header without its newline' "$work/header"

# A bad header ends the replay at once, and a line too many the report, with nothing more read: also where the input does not end.
told 'no header, endless' yes '21; 3' '24; 3'
endless() { printf 'L 33 1 0\n'; yes 'E 1 1'; }
told 'sizes out of range, endless' endless '22; 3' '24; 3'
told 'no input' true '21; 3' "0$nothing 0"

# A good header and the end of the input; whatever descriptor 3 is, on which an earlier version told how it ended.
told 'all read' entering "$entered 0" "1${one}0$one 0"
cut_off() { printf 'L 1 1 0\nE 1 1\nS 1'; }
told 'a last line without its newline' cut_off "${begun}21; 0" "1${nothing}0$nothing 0"
for name in replay report; do
    answers=$(own "$entered" "1${one}0$one")
    check "$name: descriptor 3 closed" "$(entering | "$proved/$name" 3>&- 2>&1 | tr '\n' ';')" "$answers"
    check "$name: descriptor 3 not for writing" "$(entering | "$proved/$name" 3</dev/null 2>&1 | tr '\n' ';')" "$answers"
done

# A write that fails stops the run and is said on standard error; so does a read, which is not the end of the input. A reader that goes away ends
# the run.
{ printf 'L 1 1 0\n'; yes 'E 1 1' | head -n 3000000; } >"$work/long"
for name in replay report; do
    entering | "$proved/$name" >/dev/full 2>"$work/said"
    check "$name: a full device" "$? $(grep -c "^$name: " "$work/said")" '5 1'
    entering | "$proved/$name" >&- 2>"$work/said"
    check "$name: no standard output" "$? $(grep -c "^$name: " "$work/said")" '5 1'
    found=$("$proved/$name" <. 2>"$work/said"; echo $?)
    check "$name: a folder as input" "$found $(grep -c "^$name: " "$work/said")" '4 1'
    timeout 20 sh -c '"$1" <"$2" | head -n 1 >"$3"' sh "$proved/$name" "$work/long" "$work/first" 2>/dev/null
    check "$name: a closed output, status" "$?" 0
    check "$name: a closed output, first line" "$(cat "$work/first");" "$(own "$begun" '24;')"
    found=$("$(dirname "$0")"/pipes.py "$name" "$proved/$name" | tr '\n' ';')
    check "$name: ended early on an open pipe; a pipe with nothing in it yet; an input in pieces; a full output; a slow reader" "$found" \
        "$(own '21 3;4;all 0;5;a start 5;' '24 3;4;all 0;5;')"
done

finish
