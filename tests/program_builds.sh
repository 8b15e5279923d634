#!/bin/sh
# When the scripts ./replay, ./report, ./explain and ./timeline build: where the program is missing or a source is newer, once for two calls, never two
# at once, and not without rt; and what they say meanwhile. Which calls build nothing: program_calls.sh. It needs no program and calls no rt of the kit
# and no cargo. tests/program_builds.sh; the last line is 'N passed, M failed'.
set -u
. "$(dirname "$0")/counting.sh"
here=$(cd "$(dirname "$0")/.." && pwd -P) || exit 2
. "$(dirname "$0")/program_copy.sh"

quiet=$(sed -n 's/^quiet=\([0-9]*\) .*/\1/p' "$here/tools/program.sh")

# What rt is asked for: the program's own crate, or the library that it stands on, which has a crate of its own here.
proved() { case $name in replay | report) echo "$name" ;; *) echo static ;; esac; }

# How often it was.
asked() { grep -c "^rt: .* $(proved)$" "$work/asked" 2>/dev/null; }

# The first line that a program prints here.
printed() { case $name in replay | report) head -n 1 "$listing" ;; *) echo "$listing" ;; esac; }

# Makes sources newer than the last build, by a touch of these files of the copy.
newer() {
    sleep 0.1
    (cd "$work/copy" && touch "$@")
}

# All that is said of a build from nothing, with the number of seconds left out.
whole_build() {
    echo "$name: proving and building the program: .* where nothing is proved yet; target/[a-z]*.log has what rt says"
    echo '\[1/3\] base ([0-9]* s)'
    echo '\[2/3\] second ([0-9]* s)'
    case $name in
    replay | report) echo "\[3/3\] $name ([0-9]* s)" ;;
    *)
        echo '\[3/3\] static ([0-9]* s)'
        echo "$name: compiling the programs in Rust"
        ;;
    esac
    echo "$name: built, in [0-9]* s"
}

# Nothing is built, and nothing is proved.
anew() { rm -rf "$work/copy/target" "$work"/copy/crates/*/out; }

# Whether it was said at least once that this takes long.
said_long() { if [ "$(said "still $1, for [1-9][0-9]* s\$")" -gt 0 ]; then echo yes; fi; }

# From nothing: a line for each crate and each step, in this order, and no other; and where one takes long, what is being done. It is said first, before
# rt is asked for anything.
from_nothing() {
    anew
    outcome "$work/copy/$name" "$listing" >/dev/null 3>"$work/third"
    check "$name: nothing is told to the caller's descriptor 3" "$(cat "$work/third")" ''
    whole_build >"$work/whole"
    check "$name: from nothing, what is said" "$(sed -n '$=' "$work/said")" "$(sed -n '$=' "$work/whole")"
    while IFS= read -r line; do check "$name: from nothing, a line" "$(grep -c "^$line\$" "$work/said")" 1; done <"$work/whole"
    anew
    echo 4 >"$work/slow"
    "$work/copy/$name" "$listing" >/dev/null 2>"$work/said" &
    until [ -e "$work/busy" ]; do sleep 0.1; done
    check "$name: said before anything is proved" "$(said 'proving and building')" 1
    wait "$!"
    rm "$work/slow"
    for long in base second "$(proved)"; do check "$name: long at $long" "$(said_long "proving $long")" yes; done
    case $name in replay | report) return ;; esac
    check "$name: long at what is in Rust" "$(said_long 'compiling the programs in Rust')" yes
}

builds() {
    anew
    : >"$work/asked"
    script=$work/copy/$name
    check "$name: built where it is missing" "$(outcome "$script" "$listing") $(asked)" "$(printed) 0 1"
    check "$name: not built again" "$(outcome "$script" "$listing") $(asked) $(wc -c <"$work/said")" "$(printed) 0 1 0"
    newer crates/replay/src/main.rt
    check "$name: built again after a change" "$(outcome "$script" "$listing") $(asked)" "$(printed) 0 2"
    check "$name: no crate is said to be proved that was before" "$(grep -c '\] base' "$work/said")" 0
    newer crates/replay/src/more.rt && rm "$work/copy/crates/replay/src/more.rt"
    check "$name: built again after a file is gone" "$(outcome "$script" "$listing") $(asked)" "$(printed) 0 3"
    newer crates.txt && echo 1 >"$work/slow"
    "$script" "$listing" >/dev/null 2>&1 &
    check "$name: two calls at once build once" "$(outcome "$script" "$listing") $(asked)" "$(printed) 0 4"
    wait "$!"
    check "$name: and both are answered" "$?" 0
    rm "$work/slow"
    newer crates.txt ../fails
    check "$name: a build that fails" "$(outcome "$script" "$listing") $(grep -c 'is not proved' "$work/said")" ' 1 1'
    check "$name: and is tried again" "$(outcome "$script" "$listing") $(asked)" ' 1 6'
    check "$name: and says where to read on" "$(said '.*target/[a-z]*.log has all')" 1
    rm "$work/fails"
}

# Another kit is tried all the same, and it is said what came of it.
other_kit() {
    anew
    check "$name: the kit that is named" "$(outcome "$work/copy/$name" "$listing") $(said '.*kit')" "$(printed) 0 0"
    anew
    echo 'another-kit logic 0' >"$work/version"
    before="the kit found is 'another-kit logic 0', and the proofs were checked with '$kit': trying all the same\$"
    after="all 3 crates that the program needs were proved with the kit found, 'another-kit logic 0'\$"
    check "$name: another kit" "$(outcome "$work/copy/$name" "$listing") $(said "$before") $(said "$after")" "$(printed) 0 1 1"
    newer crates.txt ../fails
    check "$name: another kit, by which it is not proved" "$(outcome "$work/copy/$name" "$listing") $(said "$before") $(said "$after")" ' 1 1 0'
    rm "$work/fails"
    : >"$work/version"
    check "$name: a kit without a name" "$(outcome "$work/copy/$name" "$listing") $(said "the kit found is '', .*: trying all the same\$")" "$(printed) 0 1"
    echo "$kit" >"$work/version"
}

kit_path=$PATH
PATH=$work/bin:$PATH
for name in replay report explain; do builds; done
for name in replay report explain timeline; do
    from_nothing
    other_kit
done
anew
check 'something is said every minute' "$([ "$quiet" -gt 0 ] && [ "$quiet" -le 60 ] && echo yes)" yes
check 'the kit is named once' "$(grep -rhoI --exclude-dir=.git --exclude-dir=target --exclude-dir=out 'rattle-kit-[0-9a-z-]* logic [0-9a-f]*' "$here")" "$kit"

# A change of what is in Rust builds the viewers again, both by one build, and proves nothing.
outcome "$work/copy/explain" "$listing" >/dev/null
newer rust/schedule_view/src/main.rs
: >"$work/built"
: >"$work/asked"
check 'timeline: built after a change in Rust' "$(outcome "$work/copy/timeline" --svg "$listing")" "--svg $listing 0"
check 'timeline: nothing is proved for that' "$(grep -c '^\[' "$work/said") $(wc -l <"$work/asked")" '0 0'
check 'explain: built with it' "$(outcome "$work/copy/explain" "$listing") $(cat "$work/built")" "$listing 0 cargo: build"

# A source that is saved while the library is being proved is seen by the next call.
newer crates.txt && echo 1 >"$work/slow"
"$work/copy/explain" "$listing" >/dev/null 2>&1 &
until [ -e "$work/busy" ]; do sleep 0.1; done
touch "$work/copy/crates/replay/src/main.rt"
wait "$!"
: >"$work/asked"
outcome "$work/copy/explain" "$listing" >/dev/null
check 'explain: a source saved while it is built' "$(tr '\n' ';' <"$work/asked")" 'rt: lib static;'
rm "$work/slow"

# Without cargo they are not built, and it is said.
newer rust/schedule_view/src/main.rs
mkdir "$work/without"
echo "$PATH" | tr ':' '\n' | while IFS= read -r place; do ln -s "$place"/* "$work/without" 2>/dev/null; done
rm -f "$work/without/cargo"
check 'explain: no cargo' "$(PATH=$work/without outcome "$work/copy/explain" "$listing") $(grep -c 'cargo is not found' "$work/said")" ' 1 1'

# Each program is built by its own call, and one behind the other.
newer crates.txt && echo 4 >"$work/slow"
: >"$work/asked"
"$work/copy/replay" "$listing" >/dev/null 2>&1 &
until [ -e "$work/busy" ]; do sleep 0.1; done
name=report
check 'both at once: the second is answered' "$(outcome "$work/copy/report" "$listing")" "$(printed) 0"
check 'both at once: it waits' "$(said 'another build is under way') $(said_long 'waiting for the other build')" '1 yes'
wait "$!"
check 'both at once: the first is answered' "$?" 0
check 'both at once: each is built' "$(sort "$work/asked" | tr '\n' ';')" 'rt: run replay;rt: run report;'
check 'no build beside another' "$(cat "$work/beside" 2>/dev/null)" ''
rm "$work/slow"

newer crates.txt
PATH=$(echo "$kit_path" | tr ':' '\n' | while IFS= read -r place; do [ -x "$place/rt" ] || printf '%s:' "$place"; done)
for name in replay report explain timeline; do
    check "$name: no kit" "$(outcome "$work/copy/$name" "$listing") $(said ".*the Rattle kit ($kit)")" ' 1 1'
done
finish
