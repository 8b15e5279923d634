#!/bin/sh
# The picture of a report, tools/report_chart.py: what is in it, what it refuses, and that docs/report.svg is the picture of the stored example.
# It needs no program but python3. tests/report_chart.sh; the last line is 'N passed, M failed'.
set -u
. "$(dirname "$0")/counting.sh"
here=$(cd "$(dirname "$0")/.." && pwd -P) || exit 2
work=$(mktemp -d) || exit 2
trap 'rm -rf "$work"' EXIT

chart=$here/tools/report_chart.py example=$here/examples/branches.expected

# A report from lines of five figures, one for each object.
report_of() {
    awk 'function row(number, five,    enters, k, line) {
            enters = five[1] + five[2] + five[3] + five[4] + five[5]
            line = number
            for (k = 1; k <= 5; k++) line = line " " five[k]
            for (k = 1; k <= 5; k++) line = line " " (enters ? int(10000 * five[k] / enters) : 0)
            for (k = 1; k <= 5; k++) line = line " " (enters ? 10000 * five[k] % enters : 0)
            print line
        }
        BEGIN { for (k = 1; k <= 5; k++) all[k] = 0 }
        { for (k = 1; k <= 5; k++) { one[k] = $k + 0; all[k] += $k } row(NR, one) }
        END { row(0, all) }'
}

# drawn CASE REPORT FACTS: what is in the picture of a file.
drawn() {
    "$chart" "$2" >"$work/picture.svg" 2>&1
    check "$1" "$("$here/tests/chart_facts.py" "$2" "$work/picture.svg" 2>&1)" "$3, 5 greys 19 apart"
}

# refused CASE COMMAND..: what the command writes is no report. Nothing is drawn, and one line says why.
refused() {
    case=$1
    shift
    "$@" >"$work/input"
    "$chart" <"$work/input" >"$work/picture.svg" 2>"$work/said"
    check "$case" "$? $(wc -c <"$work/picture.svg") $(grep -c '^report_chart: ' "$work/said") $(wc -l <"$work/said")" '1 0 1 1'
}

drawn 'the example' "$example" '13 bars, 1 empty'
echo '3 0 1 0 7' | report_of >"$work/one"
drawn 'one object' "$work/one" '2 bars, 0 empty'
awk 'BEGIN { for (n = 1; n <= 64; n++) print n % 3, (n % 7) ^ 4, n % 2 * 11, 0, n % 5 == 0 ? 30000 : 0 }' | report_of >"$work/uneven"
drawn '64 objects, uneven' "$work/uneven" '65 bars, 1 empty'
awk 'BEGIN { for (n = 1; n <= 64; n++) print n == 40, 0, 0, 0, n == 41 }' | report_of >"$work/few"
drawn '64 objects, two of them entered' "$work/few" '65 bars, 62 empty'
awk 'BEGIN { for (n = 1; n <= 3; n++) print 0, 0, 0, 0, 0 }' | report_of >"$work/none"
drawn 'no enters' "$work/none" '4 bars, 4 empty'
report_of </dev/null >"$work/headless"
drawn 'no object' "$work/headless" '1 bars, 1 empty'

# The same picture from standard input, from elsewhere and with nothing but the interpreter; and the one in the documents.
"$chart" "$example" >"$work/picture.svg"
check 'standard input' "$("$chart" <"$example" | cmp - "$work/picture.svg" && echo same)" same
check 'python3 alone' "$(cd "$work" && python3 -I -S "$chart" "$example" | cmp - "$work/picture.svg" && echo same)" same
check 'docs/report.svg' "$(cmp "$here/docs/report.svg" "$work/picture.svg" && echo same)" same

other_sum() { sed '$d' "$work/one"; tail -n 1 "$example"; }
too_many() { yes '1 1 1 1 1' | head -n 65 | report_of; }
refused '24' echo 24
refused 'nothing' true
refused 'a schedule' cat "$here/examples/listing.txt"
refused 'what the replay prints' cat "$here/examples/exit-let-out.expected"
refused 'no line for all' sed '$d' "$example"
refused 'a line is missing' sed 3d "$example"
refused 'a leading zero' sed 's/^4 /04 /' "$example"
refused 'two spaces' sed 's/ /  /' "$example"
refused 'carriage returns' sed 's/$/\r/' "$example"
refused 'an empty line at the end' sed '$G' "$example"
refused 'the last line is not whole' head -c -1 "$example"
refused 'a figure that its shares are not of' sed '1s/ 11 / 12 /' "$example"
refused 'a remainder that is wrong' sed '1s/ 48$/ 47/' "$example"
refused 'a sum that is wrong' other_sum
refused '65 objects' too_many
"$chart" "$work/no-such-file" >"$work/picture.svg" 2>"$work/said"
check 'no such file' "$? $(wc -c <"$work/picture.svg") $(grep -c '^report_chart: ' "$work/said")" '2 0 1'
"$chart" "$example" "$example" >"$work/picture.svg" 2>"$work/said"
check 'two files' "$? $(wc -c <"$work/picture.svg") $(grep -c '^report_chart: usage' "$work/said")" '2 0 1'
finish
