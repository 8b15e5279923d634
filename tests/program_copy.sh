# A copy of the scripts ./replay, ./report, ./explain and ./timeline with an rt and a cargo that make no real program, for the scripts of tests/ that read
# this file and have set `here`: the copy is in $work/copy, its commands are in $work/bin. A proved program prints its input there, a viewer its arguments.
work=$(mktemp -d) || exit 2
trap 'rm -rf "$work"' EXIT

listing=$here/examples/listing.txt
kit=$(sed -n "s/^kit='\(.*\)'.*/\1/p" "$here/tools/program.sh")

# The first line of the output of a call and its status.
outcome() {
    "$@" >"$work/output" 2>"$work/said"
    status=$?
    echo "$(head -n 1 "$work/output") $status"
}

# An rt that proves nothing, and says and writes what the kit's does in a crate's folder: `run` and `lib` name each crate that they begin, tell its
# modules when it is proved, and say neither of a crate that is as it was. `run` says so on standard error, and runs the program. It notes what it is
# asked, and whether it is asked while it is still at work.
make_rt() {
    { echo '#!/bin/sh' && echo "work=$work"; } >"$work/bin/rt"
    cat >>"$work/bin/rt" <<'RT'
case $1 in version) cat "$work/version"; exit ;; esac
crate=$(basename "$PWD")
mkdir "$work/busy" || echo "rt: $1 $crate beside another" >>"$work/beside"
echo "rt: $1 $crate" >>"$work/asked"
[ ! -e "$work/fails" ] || { rmdir "$work/busy"; echo "src/main.rt:1:1: error: $crate is not proved" >&2; exit 1; }
proves() {
    [ ! -e "../$1/out/proved" ] || return 0
    echo "rt: chose --jobs 1 for $1"
    [ ! -e "$work/slow" ] || sleep "$(cat "$work/slow")"
    printf 'fn %s::it: proved\ncrate %s: modules loaded=2 checked=3\nlogic=proved functions=1\n' "$1" "$1"
    mkdir -p "../$1/out" && : >"../$1/out/proved"
}
case $1 in
run)
    { proves base; proves second; rm -f out/proved; proves "$crate"; } >&2
    printf '#!/bin/sh\nexec cat\n' >"out/$crate"
    chmod +x "out/$crate"
    rmdir "$work/busy"
    "out/$crate"
    ;;
lib)
    proves base
    proves second
    rm -f out/proved
    proves "$crate"
    : >"out/lib$crate.a"
    rmdir "$work/busy"
    ;;
esac
RT
}

make_cargo() {
    cat >"$work/bin/cargo" <<'CARGO'
#!/bin/sh
echo "cargo: $1" >>../built
[ ! -e ../slow ] || sleep "$(cat ../slow)"
mkdir -p target/view/release
for program in explain timeline; do
    printf '#!/bin/sh\nprintf "%%s" "$*"\n' >"target/view/release/$program"
    chmod +x "target/view/release/$program"
done
CARGO
}

# A copy that says something every two seconds, with that rt, of the right kit, and that cargo.
copy() {
    for crate in base second replay report static; do mkdir -p "$work/copy/crates/$crate/src"; done
    mkdir -p "$work/copy/tools" "$work/bin"
    for package in duskclamp schedule_view; do
        mkdir -p "$work/copy/rust/$package/src"
        : >"$work/copy/rust/$package/Cargo.toml"
    done
    : >"$work/copy/rust/duskclamp/build.rs"
    cp "$here/replay" "$here/report" "$here/explain" "$here/timeline" "$work/copy"
    cp "$here/tools/proved.sh" "$here/tools/view.sh" "$here/tools/build.sh" "$work/copy/tools"
    sed 's/^quiet=[0-9]*/quiet=2/' "$here/tools/program.sh" >"$work/copy/tools/program.sh"
    printf '%s\n' base: second: 'replay: base second io' 'report: base second io' 'static staticlib: base second' >"$work/copy/crates.txt"
    for crate in replay report; do echo source >"$work/copy/crates/$crate/src/main.rt"; done
    echo "$kit" >"$work/version"
    make_rt
    make_cargo
    chmod +x "$work/bin/rt" "$work/bin/cargo"
}

# How often something of this form was said.
said() { grep -c "^$name: $1" "$work/said"; }

copy
