# What ./explain and ./timeline share, which read this file: they are programs in Rust on the proved library for C, built together. The rest is as for
# the proved programs: tools/program.sh.
crate=$(sed -n 's/^\([a-z0-9_]*\) staticlib.*:.*/\1/p' "$here/crates.txt")
program=target/view/release/$name
sources='crates crates.txt rust/*/src rust/*/Cargo.* rust/duskclamp/build.rs'
stamp=view
library=target/staticlib/liblock_engine_c.a
library_began=target/library.began

# rt looks at the whole library again where nothing is new, which takes a minute; so it is called only where something is: newer than the start of the
# library's last build by this script, or, where there was none, than the library.
proves() {
    made=$library_began
    [ -f "$made" ] || made=$library
    [ ! -f "$library" ] || (sources='crates crates.txt' && changed_since "$made")
}

make_library() {
    proves || return 0
    tools/build.sh library && touch -r "$began" "$library_began"
}

make_program() {
    if ! command -v cargo >/dev/null; then
        echo 'error: cargo is not found in PATH, and the program is in Rust'
        return 1
    fi
    make_library || return 1
    step 'compiling the programs in Rust'
    DUSKCLAMP_LIB_DIR=$PWD/target/staticlib \
        cargo build --offline --release --quiet --manifest-path rust/schedule_view/Cargo.toml --target-dir target/view
}

# A picture is called by its file, so the program opens it.
open_file() { :; }

# In the one form of each option that the program takes.
start() {
    set --
    [ -z "$svg" ] || set -- --svg
    [ -z "$lines" ] || set -- "$@" --lines "$lines"
    [ -z "$ranks" ] || set -- "$@" --ranks "$ranks"
    [ -z "$schedule" ] || set -- "$@" --schedule "$schedule"
    case $file in
    -) ;;
    -*) set -- "$@" "./$file" ;;
    *) set -- "$@" "$file" ;;
    esac
    exec "$here/$program" "$@"
}

. "$here/tools/program.sh"
