# Counts the checks of a script of tests/, which reads this file: `check NAME FOUND EXPECTED` each, and `finish` as the script's last line.
passed=0 failed=0

check() {
    if [ "$2" = "$3" ]; then
        passed=$((passed + 1))
    else
        failed=$((failed + 1))
        echo "$(basename "$0" .sh): $1: expected '$3', found '$2'"
    fi
}

finish() {
    echo "$passed passed, $failed failed"
    [ "$failed" -eq 0 ]
}

# Whether both proved programs are in the folder $1 and the second ones in $2; says how they get there where one is not.
programs_there() {
    for needed in "$1/replay" "$1/report" "$2/reference_replay" "$2/reference_report"; do
        if [ ! -x "$needed" ]; then
            echo "$(basename "$0" .sh): $needed is not there: tools/build.sh replay report builds those of target/bin, cargo build in" \
                "tests/reference the second ones"
            return 1
        fi
    done
}
