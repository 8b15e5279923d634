#!/bin/sh
# Installs the library into a prefix of its own, builds examples/c/main.c with what is there, and takes it away again. Flags come from pkg-config, or
# from the prefix itself where that is missing. The last line is 'N passed, M failed'.
set -u
. "$(dirname "$0")/counting.sh"
cd "$(dirname "$0")/.." || exit 2
for tool in make gcc; do
    if ! command -v "$tool" >/dev/null; then
        echo "install: $tool is not found"
        exit 2
    fi
done
work=$(mktemp -d) || exit 2
trap 'rm -rf "$work"' EXIT
prefix=$work/usr

make install PREFIX="$prefix" >"$work/log" 2>&1 || cat "$work/log"
[ -f "$prefix/include/duskclamp.h" ] && [ -f "$prefix/lib/libduskclamp.a" ] && [ -f "$prefix/lib/pkgconfig/duskclamp.pc" ]
check "installing" $? 0

if command -v pkg-config >/dev/null; then
    flags=$(PKG_CONFIG_PATH=$prefix/lib/pkgconfig pkg-config --cflags --libs duskclamp)
    check "asking pkg-config" $? 0
else
    flags="-I$prefix/include -L$prefix/lib -lduskclamp"
fi
# The flags are words of their own, and the folder has none that a shell would split.
# shellcheck disable=SC2086
gcc -std=c99 examples/c/main.c $flags -o "$work/example" && "$work/example" >"$work/out"
check "building the example with '$flags'" $? 0
diff examples/c/main.expected "$work/out"
check "comparing the output" $? 0

make install PREFIX=/usr/duskclamp DESTDIR="$work/stage" >"$work/log" 2>&1 || cat "$work/log"
grep -q '^prefix=/usr/duskclamp$' "$work/stage/usr/duskclamp/lib/pkgconfig/duskclamp.pc"
check "a staged install names the prefix without DESTDIR" $? 0

make uninstall PREFIX="$prefix" >"$work/log" 2>&1 || cat "$work/log"
[ -z "$(find "$prefix" -type f)" ]
check "uninstalling" $? 0
finish
