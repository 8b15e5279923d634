#!/bin/sh
# The scripts ./replay, ./report, ./explain and ./timeline over programs that are built: their statuses, what they say of them, and a link to them. Their
# arguments: program_calls.sh; when they build again: program_builds.sh. tests/program_script.sh; the last line is 'N passed, M failed'.
set -u
. "$(dirname "$0")/counting.sh"
here=$(cd "$(dirname "$0")/.." && pwd -P) || exit 2
work=$(mktemp -d) || exit 2
trap 'rm -rf "$work"' EXIT

# The output of a call, `whole` where it is the stored one, and its status.
outcome() {
    "$@" >"$work/output" 2>"$work/said"
    status=$?
    if cmp -s "$work/output" "$expected"; then echo "whole $status"; else echo "$(head -n 1 "$work/output") $status"; fi
}

# The first call sees that all is proved as it is.
calls() {
    check "$name: standard input" "$(outcome "$script" <"$input")" 'whole 0'
    check "$name: nothing is proved again" "$(grep -c '^\[' "$work/said")" 0
    check "$name: a second call says nothing" "$(outcome "$script" <"$input") $(wc -c <"$work/said")" 'whole 0 0'
    check "$name: a file" "$(outcome "$script" "$input")" 'whole 0'
    ln -sf "$script" "$work/first" && ln -sf first "$work/second"
    check "$name: a link to a link, from elsewhere" "$(cd "$work" && outcome ./second "$input")" 'whole 0'
    check "$name: a link in PATH" "$(PATH=$work:$PATH && outcome second "$input")" 'whole 0'
}

# What the kit that is here says of a crate is read: of the program's own, which is proved again, or, where another copy of the repository has that at
# hand, is not; the others stay as they are. program_builds.sh has the rest, with an rt that only says so.
looked_at_again() {
    rm -rf "$here/crates/$name/out" "$here/target/$name.current"
    check "$name: a crate that is looked at again" "$(outcome "$script" "$input")" 'whole 0'
    check "$name: and no other is proved" "$(grep '^\[' "$work/said" | grep -cv "^\[\([0-9]*\)/\1\] $name ([0-9]* s)\$")" 0
}

# The lines that are said, and those of them that say what status 3 means where $1 is printed.
told_early() { echo "$(wc -l <"$work/said") $(grep -c "^$name: ended with status 3: .*($1 was printed)" "$work/said")"; }

# $1 and $2: what is printed before the run ends early, without a header and with sizes out of range.
statuses() {
    check "$name: endless, no header" "$(yes | outcome timeout 20 "$script")" "$1 3"
    check "$name: and it says what that means" "$(told_early "$1")" "1 1"
    check "$name: endless, sizes out of range" "$({ echo 'L 33 1 0'; yes; } | outcome timeout 20 "$script")" "$2 3"
    check "$name: and it says what that means" "$(told_early "$2")" "1 1"
    yes | timeout 20 "$script" >/dev/null 2>&-
    check "$name: no standard error" "$?" 3
    check "$name: a folder" "$(outcome "$script" <"$here")" ' 4'
    check "$name: and it says who could not read" "$(grep -c "^$name: " "$work/said")" 1
    "$script" "$input" >/dev/full 2>"$work/said"
    check "$name: a full device" "$?" 5
    check "$name: and it says why" "$(cat "$work/said")" "$name: standard output: No space left on device"
    "$script" "$input" >&- 2>/dev/null
    check "$name: no standard output" "$?" 5
    check "$name: no standard input" "$(outcome "$script" <&-)" ' 4'
    ended
}

# By a signal, and where nobody reads.
ended() {
    "$script" <"$work/open" >"$work/output" 2>&1 &
    sleep 0.5
    kill "$!"
    wait "$!"
    check "$name: ended by a signal to it alone" "$?" 143
    # Nothing is read, and so nothing written, before the reader is gone.
    { sleep 0.5; cat "$input"; } | { "$script"; echo $? >"$work/status"; } | true
    check "$name: nobody reads any more" "$(cat "$work/status")" 141
}

# $1: the number that is printed where the run ends early.
help() {
    check "$name: help" "$(outcome "$script" --help)" "usage: ./$name [FILE] 0"
    check "$name: and it says what status 3 means here" "$(grep -c "^ *3 .*$1 was printed" "$work/output")" 1
}

# A report of nothing is as it was, and it is said that no schedule was there; nothing is said of an empty schedule.
headless() {
    nothing='0 0 0 0 0 0 0 0 0 0 0 0 0 0 0 0'
    for input in '' 'E 1 1\nS 1\n' 'L 33 1 0\nE 1 1\n' 'L 1 1 0'; do
        check "report: no good header in '$input'" "$(printf "$input" | outcome "$script") $(wc -l <"$work/output")" "$nothing 0 1"
        check 'report: and it says so' "$(wc -l <"$work/said") $(grep -c '^report: no good header is in the input' "$work/said")" '1 1'
    done
    check 'report: a header alone' "$(printf 'L 1 1 0\n' | outcome "$script") $(wc -l <"$work/output") $(wc -c <"$work/said")" "1${nothing#0} 0 2 0"
}

# rust/schedule_view/tests has the rest of the viewers' statuses.
viewer() {
    check "$name: a folder" "$(outcome "$script" <"$here")" ' 4'
    check "$name: and it says who could not read" "$(grep -c "^$name: " "$work/said")" 1
    check "$name: a header that is bad" "$(echo x | outcome "$script" | sed 's/.* //')" 3
    "$script" "$input" >&- 2>/dev/null
    check "$name: no standard output" "$?" 5
    check "$name: no standard input" "$(outcome "$script" <&-)" ' 4'
    "$script" "$input" <&- >/dev/null
    check "$name: no standard input, and a file" "$?" 0
    ended
}

# An input that stays open and has nothing in it.
mkfifo "$work/open"
exec 7<>"$work/open"
for name in replay report; do
    script=$here/$name
    case $name in
    replay) input=$here/examples/listing.txt expected=$here/crates/replay/stdout early='21 22' ;;
    report) input=$here/examples/branches.txt expected=$here/examples/branches.expected early='24 24' ;;
    esac
    calls
    case $name in replay) looked_at_again ;; esac
    statuses $early
    help "${early#* }"
done
headless
name=explain script=$here/explain input=$here/examples/cancelled-before-store.txt expected=$here/examples/cancelled-before-store.explained
calls
viewer
input=$here/examples/screen-passes-report.txt expected=$here/examples/screen-passes-report.explained
check 'explain: ranks' "$(outcome "$script" --ranks 3,0,1 "$input")" 'whole 0'
check 'explain: ranks in another form, and one more than threads' "$(outcome "$script" --ranks=3,0,1,0,3 <"$input")" 'whole 0'
input=$here/examples/cancelled-before-store.txt
name=timeline script=$here/timeline expected=$here/docs/pictures/cancelled-before-store.svg
check 'timeline: built with explain, and draws' "$(outcome "$script" --svg "$input") $(wc -c <"$work/said")" 'whole 0 0'
check 'timeline: every option, in another form' "$(outcome "$script" --svg --lines=1- --ranks=0 --schedule=1 -- "$input" | sed 's/.* //')" 0
viewer
finish
