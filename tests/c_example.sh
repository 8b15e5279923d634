#!/bin/sh
# Compiles the C examples and the programs of tests/c against the static library, README's snippets among them, and compares what they print. The header
# is compiled as C99 and as C++. The last line is 'N passed, M failed'.
set -u
. "$(dirname "$0")/counting.sh"
cd "$(dirname "$0")/.." || exit 2
library=target/staticlib/liblock_engine_c.a
if [ ! -f "$library" ]; then
    echo "c_example: $library is not there: run tools/build.sh library"
    exit 2
fi
if ! command -v gcc >/dev/null; then
    echo "c_example: gcc is not found"
    exit 2
fi

# README's snippets in C, one behind the other, and what it says that they print. They are compiled into tests/c/readme.c.
fenced() {
    awk -v language="$1" '$0 == "```" language { inside = 1; next } /^```/ { inside = 0 } inside' README.md
}
fenced c >target/readme_snippets.h
fenced text >target/readme.expected
check "snippets in README" "$(grep -c '^```c$' README.md)" 4

# Compiles a program, with what stands behind it as the compiler, runs it and compares what it prints; spaces at the end of a line do not count.
program() {
    source=$1 expected=$2
    shift 2
    name=$(basename "$source" .c)
    "$@" -pedantic -Wall -Wextra -Werror -I include -I target "$source" "$library" -o "target/c_$name"
    check "compiling $source with $1" $? 0
    "target/c_$name" >"target/c_$name.out"
    check "running $name" $? 0
    diff -Z "$expected" "target/c_$name.out"
    check "comparing the output of $name" $? 0
}

for source in examples/c/*.c examples/kiosk/*.c tests/c/run_events.c tests/c/fresh_given.c; do
    program "$source" "${source%.c}.expected" gcc -std=c99
done
program tests/c/readme.c target/readme.expected gcc -std=c99
gcc -x c -std=c99 -pedantic -Wall -Wextra -Werror -fsyntax-only include/duskclamp.h
check "the header alone, as C99" $? 0
if command -v g++ >/dev/null; then
    g++ -x c++ -std=c++11 -pedantic -Wall -Wextra -Werror -fsyntax-only include/duskclamp.h
    check "the header as C++" $? 0
    g++ -x c++ -std=c++11 -I include -c tests/c/run_events.c -o target/c_run_events.o && g++ target/c_run_events.o "$library" -o target/c_run_events &&
        target/c_run_events >target/c_run_events.out
    check "events as structs, from C++" $? 0
    diff tests/c/run_events.expected target/c_run_events.out
    check "comparing the output of events from C++" $? 0
fi
finish
