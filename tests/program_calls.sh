#!/bin/sh
# How the scripts ./replay, ./report, ./explain and ./timeline may be called: what is refused, before anything is built for it, and what is handed to the
# program. It needs no program and calls no rt of the kit and no cargo. tests/program_calls.sh; the last line is 'N passed, M failed'.
set -u
. "$(dirname "$0")/counting.sh"
here=$(cd "$(dirname "$0")/.." && pwd -P) || exit 2
. "$(dirname "$0")/program_copy.sh"

# refused WORDS ARGUMENT..: ends with status 2, says these words by its name, prints nothing, and builds nothing.
refused() {
    words=$1
    shift
    found=$(outcome "$work/copy/$name" "$@" </dev/null)
    check "$name $*" "$found $(said "$words\$") $(made)" ' 2 1 nothing'
}

made() { if [ -e "$work/copy/target" ] || [ -e "$work/asked" ]; then echo something; else echo nothing; fi; }

# Runs a command as somebody who may not do everything.
unprivileged() {
    if [ "$(id -u)" -eq 0 ]; then setpriv --reuid=65534 --regid=65534 --clear-groups "$@"; else "$@"; fi
}

wrong_options() {
    refused 'there is no option --fast' --fast
    check "$name: and says how it is called" "$(grep -c "^usage: ./$name \[" "$work/said")" 1
    refused 'there is no option -x' "$listing" -x
    refused 'there is no option --help=yes' --help=yes
    refused "one FILE at most is read, and '$work' is one more" "$listing" "$work"
    refused "one FILE at most is read, and '-' is one more" -- "$listing" -
    case $name in timeline) return ;; esac
    refused 'there is no option --svg' --svg "$listing"
    refused 'there is no option --lines' --lines 1-2 "$listing"
    refused 'there is no option --lines' --lines=1-2 "$listing"
    case $name in explain) return ;; esac
    refused 'there is no option --schedule' --schedule 1 "$listing"
    refused 'there is no option --ranks' --ranks 1 "$listing"
    refused 'there is no option --ranks' --ranks=1 "$listing"
}

wrong_values() {
    for value in 0 -1 one '' 1.5 ' 1' 1234567890123456789; do
        refused "--schedule takes a number from 1 on, and not '$value'" --schedule "$value" "$listing"
        refused "--schedule takes a number from 1 on, and not '$value'" "--schedule=$value" "$listing"
    done
    refused "--schedule takes a number from 1 on, and not ''" --schedule
    for value in '' 4 -1 a 3, ,3 3,,1 '3, 1' 03 10 3.1 3-1 0,0,0,4; do
        refused "--ranks takes ranks of 0 to 3, as 3,0,1 for threads 1, 2 and 3, and not '$value'" --ranks "$value" "$listing"
        refused "--ranks takes ranks of 0 to 3, as 3,0,1 for threads 1, 2 and 3, and not '$value'" "--ranks=$value" "$listing"
    done
    refused "--ranks takes ranks of 0 to 3, as 3,0,1 for threads 1, 2 and 3, and not ''" --ranks
    case $name in explain) return ;; esac
    for value in 0 0-5 -5 9-5 a-b 1-2-3 - '' 1234567890123456789 1-1234567890123456789; do
        refused "--lines takes N, FROM-TO or FROM-, counted from 1, and not '$value'" --lines "$value" "$listing"
        refused "--lines takes N, FROM-TO or FROM-, counted from 1, and not '$value'" "--lines=$value" "$listing"
    done
    refused "--lines takes N, FROM-TO or FROM-, counted from 1, and not ''" --lines
}

# Files that cannot be opened, and streams that are closed.
nothing_to_read() {
    refused "$work/none cannot be opened: No such file or directory" "$work/none"
    refused "$work/dangling cannot be opened: No such file or directory" "$work/dangling"
    refused "$listing/none cannot be opened: Not a directory" "$listing/none"
    refused "$work cannot be opened: it is a folder" "$work"
    refused ' cannot be opened: No such file or directory' ''
    for file in secret closed/file; do
        found=$(outcome unprivileged "$work/copy/$name" "$work/$file")
        check "$name: a file that may not be read, $file" "$found $(said "$work/$file cannot be opened: [Pp]ermission denied") $(made)" ' 2 1 nothing'
    done
    check "$name: no standard input" "$(outcome "$work/copy/$name" <&-) $(said 'standard input is closed') $(made)" ' 4 1 nothing'
    "$work/copy/$name" "$listing" >&- 2>"$work/said"
    check "$name: no standard output" "$? $(said 'standard output is closed') $(made)" '5 1 nothing'
}

asked_for_help() {
    for option in --help -h; do
        check "$name: $option" "$(outcome "$work/copy/$name" "$option" | sed 's/ \[.*\]//') $(made)" "usage: ./$name 0 nothing"
    done
    "$work/copy/$name" --help </dev/null >/dev/full 2>/dev/null
    check "$name: help that cannot be written" "$? $(made)" '5 nothing'
    check "$name: --help behind a file" "$(outcome "$work/copy/$name" "$listing" --help | sed 's/ \[.*\]//') $(made)" "usage: ./$name 0 nothing"
}

# A folder that may not be written, with and without a target/.
read_only() {
    for target in none there locked; do
        mkdir "$work/read_only" && cp -R "$work/copy/." "$work/read_only"
        case $target in there | locked) mkdir "$work/read_only/target" ;; esac
        case $target in locked) : >"$work/read_only/target/build.lock" ;; esac
        chmod -R a+rX,a-w "$work/read_only"
        case $target in locked) chmod a+w "$work/read_only/target" ;; esac
        found=$(outcome unprivileged "$work/read_only/$name" "$work/schedules/listing")
        check "$name: a read-only folder, target/ $target" "$found $(said '.*copy the repository to a folder that you may write') $(wc -l <"$work/said")" ' 1 1 1'
        chmod -R u+w "$work/read_only" && rm -r "$work/read_only"
    done
}

# handed EXPECTED ARGUMENT..: what the program gets, of a viewer its arguments, else its input; called in a folder with the listing and one that is
# called -odd, and with a third on standard input.
handed() {
    expected=$1
    shift
    check "$name $*" "$(cd "$work/schedules" && outcome "$work/copy/$name" "$@" <<INPUT
of standard input
INPUT
)" "$expected 0"
}

proved_takes() {
    handed 'of standard input'
    handed 'of standard input' -
    handed 'of standard input' -- -
    handed 'of standard input' --
    handed 'of the listing' listing
    handed 'of the listing' -- listing
    handed 'of the odd one' -- -odd
    handed 'of the odd one' ./-odd
}

viewer_takes() {
    handed ''
    handed '' -
    handed '' --
    handed listing listing
    handed listing -- listing
    handed ./-odd -- -odd
    handed './a file' './a file'
    handed '--schedule 2 listing' --schedule 2 listing
    handed '--schedule 2 listing' listing --schedule=2
    handed '--schedule 3' --schedule=2 --schedule 3 -
    handed '--ranks 3,0,1 listing' --ranks 3,0,1 listing
    handed '--ranks 0 --schedule 2 listing' --schedule 2 listing --ranks=0
    handed '--ranks 2' --ranks=1 --ranks 2 -
    case $name in explain) return ;; esac
    handed '--svg listing' listing --svg
    handed '--lines 5-5 listing' --lines 5 listing
    handed '--lines 5-5' --lines=5
    handed '--lines 2-3' --lines=2-3 -
    handed '--lines 2-3 listing' --lines 2-3 -- listing
    handed '--lines 4-' --lines 4-
    handed '--svg --lines 4-4 --ranks 3 --schedule 123456789012345678 ./-odd' --schedule=123456789012345678 --lines=4 --ranks=3 --svg -- -odd
}

PATH=$work/bin:$PATH
ln -s none "$work/dangling"
echo secret >"$work/secret" && chmod 000 "$work/secret"
mkdir "$work/closed" && echo file >"$work/closed/file" && chmod 000 "$work/closed"
mkdir "$work/schedules"
printf 'of the listing\nand more\n' >"$work/schedules/listing"
echo 'of the odd one' >"$work/schedules/-odd"
echo 'of a file' >"$work/schedules/a file"
# Whoever may not do everything must get there.
chmod 755 "$work" && chmod -R a+rX "$work/copy" "$work/bin" "$work/schedules"
for name in replay report explain timeline; do
    wrong_options
    nothing_to_read
    asked_for_help
    read_only
    case $name in explain | timeline) wrong_values ;; esac
done
for name in replay report explain timeline; do
    case $name in explain | timeline) viewer_takes ;; *) proved_takes ;; esac
done
chmod -R a+rX,a-w "$work/copy"
for name in replay report explain timeline; do
    found=$(outcome unprivileged "$work/copy/$name" "$work/schedules/listing" | sed 's/.* //')
    check "$name: a read-only folder, once it is built" "$found $(wc -c <"$work/said")" '0 0'
done
chmod -R u+w "$work/copy"
chmod 700 "$work/closed"
finish
