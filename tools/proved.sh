# What ./replay and ./report share, which read this file: they are crates of their own, and read standard input alone. The rest is as for the programs in
# Rust: tools/program.sh. `no_header` is what is said where the output has one line, if anything is.
options='[FILE]'
takes=''
crate=$name
program=target/bin/$name
sources='crates crates.txt'
stamp=$name

proves() { true; }

make_program() { tools/build.sh "$name"; }

open_file() { exec <"$file"; }

# Runs a command in the background, so that a signal to this script alone reaches it; there it has no standard input but one that is handed to it.
awaited() {
    "$@" <&5 5<&- 6>&- &
    running=$!
    wait "$running"
}

# Writes what was held back. Ends as the program itself would where it cannot be written.
hand_on() {
    exec >&6
    awaited env LC_ALL=C cat "$work/output" 2>"$work/why"
    handed=$?
    [ "$handed" -ne 0 ] || return 0
    [ "$handed" -lt 128 ] || exit "$handed"
    say "standard output: $(sed 's/.*: //' "$work/why")"
    exit 5
}

# Ends with the program's status, and says what it alone does not; where nobody hears that, the status is the same.
ended_with() {
    case $1 in
    3) say "ended with status 3: $ended_early" ;;
    0) [ -z "$no_header" ] || [ "$(wc -l <"$work/output")" -ne 1 ] || say "$no_header" ;;
    esac
    exit "$1"
}

# Ends as other filters do where nobody reads any more, which to the program is a write that failed: by the signal, unless the caller ignores that.
unread() {
    case $(tail -n 1 "$work/complaint") in *': Broken pipe') ;; *) return 0 ;; esac
    sh -c 'kill -s PIPE "$$"' || exit 141
}

# Runs the program. What it writes is held back only where something is said of it: the report, which is short and is not written before the input has
# ended. What it complains of comes when it has ended, which it then does at once.
start() {
    work=$(mktemp -d) || exit 1
    running=''
    trap 'rm -rf "$work"' EXIT
    trap 'kill "$running" 2>/dev/null; exit 130' INT
    trap 'kill "$running" 2>/dev/null; exit 143' TERM
    exec 5<&0 6>&1
    [ -z "$no_header" ] || exec >"$work/output"
    awaited "$here/$program" 2>"$work/complaint"
    ended=$?
    [ "$ended" -ne 5 ] || unread
    cat "$work/complaint" >&2 2>/dev/null
    [ -z "$no_header" ] || hand_on
    ended_with "$ended"
}

. "$here/tools/program.sh"
