#!/bin/sh
# Proves and builds programs, and the library for C: tools/build.sh NAME..
#
#     replay, report, soundness_bench, cases    each a program, to target/bin
#     library                                   to target/staticlib/liblock_engine_c.a
#
# rt makes them in the folder out/ of a crate, where the next rt ci takes them away; whoever runs or links them finds them in target/.
set -u
cd "$(dirname "$0")/.." || exit 2
rt=${RT:-rt}

# In one step, so that nobody meets half a file.
put() { mkdir -p "${2%/*}" && cp "$1" "$2.new" && mv "$2.new" "$2"; }

# The crate of the static library, as crates.txt marks it.
static_crate() { sed -n 's/^\([a-z0-9_]*\) staticlib.*:.*/\1/p' crates.txt; }

# rt builds a program and runs it, here on its stored input, where it has one.
program() {
    input=crates/$1/stdin
    [ -f "$input" ] || input=/dev/null
    input=$(readlink -f "$input")
    (cd "crates/$1" && "$rt" run <"$input" >/dev/null) && put "crates/$1/out/$1" "target/bin/$1"
}

library() {
    crate=$(static_crate)
    (cd "crates/$crate" && "$rt" lib) && put "crates/$crate/out/lib$crate.a" target/staticlib/liblock_engine_c.a
}

if [ $# -eq 0 ]; then
    echo 'usage: tools/build.sh NAME.., each replay, report, soundness_bench, cases or library' >&2
    exit 2
fi
for name; do
    if [ "$name" = library ]; then
        library || exit 1
    elif [ -f "crates/$name/src/main.rt" ]; then
        program "$name" || exit 1
    else
        echo "build: $name is neither a program of crates/ nor library" >&2
        exit 2
    fi
done
