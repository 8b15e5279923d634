# What ./replay, ./report, ./explain and ./timeline share: tests what was asked for, proves and builds the program where it is missing or a source is
# newer, and runs it. Before this file is read, the scripts, and tools/proved.sh for the proved programs and tools/view.sh for those in Rust, have set
#     name, here        the program's, and the top of the repository
#     about, options    what --help says of it, and how it is called
#     takes             the options that it has beside --help
#     ended_early       what status 3 means
#     crate, sources    what is proved, and what the program is built from
#     program, stamp    its file, and the name under which a build is remembered; programs that are built together have one
#     proves            whether rt has anything to do
#     make_program      what builds it, in the top folder
#     open_file         opens the file that is to be read, if that is not the program's to do
#     start             runs the program, and ends with its status
set -u
kit='rattle-kit-13f logic dac8208d650f15bf'        # what `rt version` prints of the kit that the proofs were checked with; it is named nowhere else
build_time='about nine minutes on four processors' # of each program, from nothing
quiet=30                                           # seconds of a build after which something is said in any case

usage() {
    cat <<TEXT
usage: ./$name $options

$about

FILE may be -, which is standard input; behind -- a name may begin with a hyphen. docs/REFERENCE.md has the format.

The first call proves and builds the program; later calls start at once, and build again where a source is newer.

status  0  the whole input was read, or what was asked for of it
        1  the program could not be proved or built
        2  other arguments than these, or FILE cannot be opened
        3  $ended_early
        4  the input could not be read
        5  the output could not be written
      128  and more: ended by a signal, as 141 where nobody reads the output any more
TEXT
}

say() { printf '%s: %s\n' "$name" "$*" >&2; }

# Ends where the call is another than there is.
misused() {
    say "$*"
    printf 'usage: ./%s %s\n./%s --help says more\n' "$name" "$options" "$name" >&2
    exit 2
}

# Whether it is a number from 1 on; one of more digits would not fit everywhere.
positive() {
    case $1 in '' | *[!0-9]* | ???????????????????*) return 1 ;; esac
    [ "$1" -gt 0 ]
}

# `N`, `FROM-TO` or `FROM-`, as FROM-TO or FROM-.
range() {
    from=${1%%-*} to=${1#*-}
    positive "$from" || return 1
    [ -z "$to" ] || { positive "$to" && [ "$from" -le "$to" ]; } || return 1
    echo "$from-$to"
}

# Whether it is ranks, of 0 to 3 each, with commas between them.
ranks_known() {
    case ,$1, in *,,* | *[!0-3,]* | *[0-3][0-3]*) return 1 ;; esac
}

# Takes an option, and its value where it has one.
option() {
    case " $takes " in *" $1 "*) ;; *) misused "there is no option $1" ;; esac
    case $1 in
    --svg) svg=yes ;;
    --lines) lines=$(range "$2") || misused "--lines takes N, FROM-TO or FROM-, counted from 1, and not '$2'" ;;
    --schedule)
        positive "$2" || misused "--schedule takes a number from 1 on, and not '$2'"
        schedule=$2
        ;;
    --ranks)
        ranks_known "$2" || misused "--ranks takes ranks of 0 to 3, as 3,0,1 for threads 1, 2 and 3, and not '$2'"
        ranks=$2
        ;;
    esac
}

one_file() {
    [ -z "$named" ] || misused "one FILE at most is read, and '$1' is one more"
    file=$1 named=yes
}

# Reads the arguments: here alone, so that nothing is built for a call that is wrong.
arguments() {
    svg='' lines='' schedule='' ranks='' file=- named=''
    while [ $# -gt 0 ]; do
        case $1 in
        --help | -h)
            usage || exit 5
            exit 0
            ;;
        --) shift && break ;;
        --lines=* | --schedule=* | --ranks=*) option "${1%%=*}" "${1#*=}" ;;
        --lines | --schedule | --ranks)
            option "$1" "${2-}"
            shift
            ;;
        --svg) option "$1" ;;
        -?*) misused "there is no option $1" ;;
        *) one_file "$1" ;;
        esac
        shift
    done
    for argument; do one_file "$argument"; done
}

# Ends where the file cannot be opened. It is not tried, since the writer of a pipe would take that for its reader.
file_there() {
    if [ -d "$file" ]; then
        why='it is a folder'
    elif [ -r "$file" ]; then
        return 0
    elif [ -e "$file" ]; then
        why='permission denied'
    else
        why=$(LC_ALL=C ls -dL -- "$file" 2>&1 >/dev/null | sed 's/.*: //')
    fi
    say "$file cannot be opened: $why"
    exit 2
}

# Ends where there is nowhere to write, or nothing to read from.
streams_open() {
    if ! { true 6>&1; } 2>/dev/null; then
        say 'standard output is closed'
        exit 5
    fi
    [ "$file" = - ] || return 0
    if ! { true 6<&0; } 2>/dev/null; then
        say 'standard input is closed'
        exit 4
    fi
}

# The crates that the program needs, itself last: in the order in which rt proves them, each behind those that it uses.
needed() {
    awk -v name="$crate" 'function visit(n,    a, k, m) {
            if (n in met) return
            met[n]
            m = split(deps[n], a, " ")
            for (k = 1; k <= m; k++) if (a[k] in deps) visit(a[k])
            print n
        }
        { sub(/#.*/, "") }
        NF { split($0, part, ":"); split(part[1], word, " "); deps[word[1]] = part[2] }
        END { visit(name) }' crates.txt
}

# Whether a source is newer than a file, or gone; folders count, so that a file that is gone is seen. What rt makes lies in the crates' folders out/, and
# is no source; nor is the folder of a crate, in which out/ comes and goes.
changed_since() {
    found=$(find $sources -path 'crates/*/out' -prune -o -newer "$1" ! \( -path 'crates/*' ! -path 'crates/*/*' \) -print | head -n 1)
    [ -n "$found" ]
}

# Whether a source is newer than the program's last build, or gone.
stale() { [ ! -x "$program" ] || [ ! -f "$current" ] || changed_since "$current"; }

# Says what is being done and since when, where nothing was said for a while.
still() {
    now=$(date +%s)
    [ $((now - spoke)) -ge "$quiet" ] || return 0
    spoke=$now
    say "still $1, for $((now - since)) s"
}

# What a build does beside proving crate after crate: a line of its log, from which `progress` says it.
step() { echo "step: $*"; }

# What the build is at: the last step; before any, the crate that rt has begun.
doing() { echo "${at_step:-${at_crate:+proving $at_crate}}"; }

# The place of a crate among those that the program needs; those before it are proved by then, now or earlier.
place_of() {
    place=0
    for item in $plan; do
        place=$((place + 1))
        [ "$item" != "$1" ] || echo "$place"
    done
}

# A crate that is proved, and how long that took. It is not said where nothing was new ($2): that many of its modules were checked.
proved_now() {
    at_step="proving what is behind $1"
    [ "$1" != "$crate" ] || at_step='compiling the program'
    [ "$2" -gt 0 ] || return 0
    printf '[%d/%d] %s (%d s)\n' "$(place_of "$1")" "$total" "$1" "$((now - since))" >&2
    since=$now spoke=$now
}

# A line of the log. rt names a crate when it begins it, and at its end its modules, and then whether it is proved; of a crate that is as it was it says
# nothing.
follow() {
    case $1 in
    'rt: chose --jobs '*' for '*) at_crate=${1##* } at_step='' since=$now ;;
    'crate '*': modules loaded='*' checked='*) seen=${1#crate } ;;
    'logic=proved '*) [ -z "$seen" ] || proved_now "${seen%%:*}" "${seen##*checked=}" ;;
    'step: '*)
        at_step=${1#step: } since=$now spoke=$now
        say "$at_step"
        ;;
    esac
}

# Says what the growing log tells, and, where that is nothing for a while, what is being done. Ends with the build, or with this script ($1).
progress() {
    plan=$(needed) at_crate='' seen='' at_step='looking at what is proved' part='' building=yes
    total=$(echo "$plan" | wc -l) now=$(date +%s)
    since=$now spoke=$now
    exec 8<"$log"
    while [ -n "$building" ] && kill -0 "$1" 2>/dev/null; do
        sleep 1
        now=$(date +%s)
        [ -e "$began" ] || building=''
        while IFS= read -r line <&8; do
            follow "$part$line"
            part=''
        done
        part=$part$line
        still "$(doing)"
    done
}

# Ends where nothing can be built because nothing can be written.
writable() {
    mkdir -p target 2>/dev/null && [ -w target ] && { true >>target/build.lock; } 2>/dev/null && return 0
    say "the program must be built first, and that writes to target/, which cannot be written here: copy the repository to a folder that you may write" \
        "to, and call ./$name there"
    exit 1
}

# One build at a time in this folder, of whichever program: two would spoil each other's. What a build that was broken off has left running still
# holds the lock.
alone() {
    exec 9>target/build.lock
    command -v flock >/dev/null || return 0
    flock -n 9 && return 0
    say 'another build is under way here: waiting for it'
    since=$(date +%s)
    spoke=$since
    until flock -n 9; do
        sleep 1
        still 'waiting for the other build'
    done
}

# Ends where the kit is not there; says where it is another.
kit_there() {
    if ! command -v rt >/dev/null; then
        say "the program must be proved and built first, and that needs the Rattle kit ($kit): its command rt is not found in PATH"
        exit 1
    fi
    found=$(rt version)
    [ "$found" = "$kit" ] && return 0
    other_kit="'$found'"
    say "the kit found is $other_kit, and the proofs were checked with '$kit': trying all the same"
}

# What is said before a build, and once it is done.
announced() {
    if proves; then
        say "proving and building the program: $build_time where nothing is proved yet; $log has what rt says"
    else
        say "building the program; $log has what is said"
    fi
}

completed() {
    [ -z "$other_kit" ] || say "all $(needed | wc -l) crates that the program needs were proved with the kit found, $other_kit"
    say "built, in $(($(date +%s) - start_time)) s"
}

# Proves and builds. The time before the build counts as that of the program, so that a source saved meanwhile is seen as newer.
build() {
    other_kit='' start_time=$(date +%s)
    writable
    if proves; then kit_there; fi
    alone
    stale || return 0
    announced
    true >"$log" && true >"$began" || exit 1
    progress $$ &
    watcher=$!
    make_program >>"$log" 2>&1 </dev/null
    built=$?
    if [ "$built" -ne 0 ]; then
        kill "$watcher" 2>/dev/null
        grep -E 'error|NOT PROVED|FAILED' "$log" | cut -c 1-200 | tail -n 20 >&2
        say "the program could not be proved or built; $log has all that was said"
        exit 1
    fi
    if ! mv "$began" "$current"; then
        say "$began is gone: another build has taken it away"
        exit 1
    fi
    wait "$watcher"
    completed
}

# Of the build, in the top folder. Each program that is built without another has its own.
current=target/$stamp.current began=target/$stamp.began log=target/$stamp.log

arguments "$@"
[ "$file" = - ] || file_there
streams_open
[ "$file" = - ] || open_file
trap 'exit 130' INT
trap 'exit 143' TERM
if (cd "$here" && stale); then
    (cd "$here" && build) || exit 1
fi
start
