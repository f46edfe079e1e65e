# Shared by archive, test, accesses, older, bench and faults in this folder (sourced, POSIX sh): makes the archives that the Rust host links.
#   make_archives    sets $native (folder of an archive for this machine's own processor) and $shipped (the same folder where the
#                    archive was made here, by rt; empty where it was given)
# Environment:
#   CHROMATIC_ARCHIVE=DIR  takes DIR/libchromatic.a, made for this processor, and runs no rt (the crate's build script reads it too)
#   HOST_TARGET=DIR        everything but the archives is built below it (the repository's target/host)
# rt ci refuses a checkout in which there is a link, or a crates.txt, .rt or .antt file where it looks for none: no script leaves one in target/.
# Nothing is installed, and nothing changes outside target/ and these folders.

say() { printf '%s: %s\n' "$me" "$*"; }
die() { printf '%s: error: %s\n' "$me" "$*" >&2; exit 2; }

lib=chromatic
export RUST_BACKTRACE=0
export RUSTUP_AUTO_INSTALL=0
machine=$(uname -m)
target=${HOST_TARGET:-$root/target/host}
mkdir -p "$target" 2>/dev/null && [ -w "$target" ] || die "$target cannot be written: set HOST_TARGET to a folder that can"
target=$(CDPATH='' cd -P "$target" && pwd -P)

need_cargo() {
    command -v cargo >/dev/null || die "cargo is not on the PATH"
    command -v cc >/dev/null || die "there is no C compiler, which cargo links with: apt-get install gcc libc6-dev"
}

c_program() { # NAME "STANDARD .." FOLDER: compiled with all warnings, and linked with that folder's archive
    case $2 in
    *++*) set -- "$@" c++ "-x c++ -Wold-style-cast -Wuseless-cast -Wzero-as-null-pointer-constant" ;;
    *) set -- "$@" cc "-Wstrict-prototypes -Wmissing-prototypes -Wdeclaration-after-statement" ;;
    esac
    # What Rust's own library needs is for the cousin's archive; the library's needs nothing.
    # shellcheck disable=SC2086
    "$4" $2 $5 -Wall -Wextra -Wpedantic -Wconversion -Wsign-conversion -Wshadow -Wcast-qual -Wcast-align -Wundef -Wunused -Werror -Wno-unknown-warning-option \
        -o "$target/$1" "$root/host/tests/$1.c" -x none -L "$3" -l"$lib" -lpthread -ldl -lm
}

# The cousin as an archive that stands in for the library's.
make_cousin() {
    say "the archive is the cousin's, not the library's"
    native=$target/cousin/archive shipped=''
    (cd "$root/host/cousin" && cargo rustc --quiet --offline --release --lib --features exports --crate-type staticlib --target-dir "$target/cousin") >"$target/cousin.log" 2>&1 ||
        { cat "$target/cousin.log" >&2; die "the cousin does not build"; }
    mkdir -p "$native"
    cp "$target/cousin/release/libcousin.a" "$native/lib$lib.a"
    export CHROMATIC_ARCHIVE="$native"
}

# One at a time, where there is flock, as ./marks does: two builds in one checkout write the same files.
prove_and_build() {
    exec 8<"$root/crates.txt"
    if command -v flock >/dev/null && ! flock -n 8; then
        say "another build is under way here: waiting for it" >&2
        flock 8 || :
    fi
    build_archive
    exec 8<&-
}
# rt leaves the archive in the crate's out/, which a later `rt ci` empties; the crate's build script looks in target/. One that has not
# changed keeps its time there, so that cargo builds nothing anew.
# It is compiled for any x86-64: by itself rt would take the extensions of x86-64-v2, and a static library does not look whether they are there.
build_archive() {
    (cd "$root/crates/$lib" && rt lib --cpu x86-64) </dev/null >"$target/rt.log" 2>&1 || { cat "$target/rt.log" >&2; die "rt lib failed in crates/$lib (above)"; }
    built=$root/crates/$lib/out/lib$lib.a
    [ -f "$built" ] || { cat "$target/rt.log" >&2; die "rt lib ended well, and there is no $built: this toolchain builds otherwise than the one that README.md names"; }
    shipped=$root/target/staticlib
    mkdir -p "$shipped"
    cmp -s "$built" "$shipped/lib$lib.a" || { cp "$built" "$shipped/lib$lib.a.new" && mv "$shipped/lib$lib.a.new" "$shipped/lib$lib.a"; } || die "$shipped cannot be written"
}

make_archives() {
    shipped=''
    if [ -n "${CHROMATIC_ARCHIVE-}" ]; then
        [ -f "$CHROMATIC_ARCHIVE/lib$lib.a" ] || die "CHROMATIC_ARCHIVE is '$CHROMATIC_ARCHIVE', and there is no lib$lib.a in it"
        say "the archive is given by CHROMATIC_ARCHIVE"
        native=$(cd "$CHROMATIC_ARCHIVE" && pwd -P)
        export CHROMATIC_ARCHIVE="$native"
        return
    fi
    [ "$machine" = x86_64 ] || die "the Rattle toolchain is for x86-64 Linux, and this machine is $machine: CHROMATIC_ARCHIVE=DIR gives an archive for it, if there is one"
    command -v rt >/dev/null || die "rt is not on the PATH: the Rattle toolchain (x86-64 Linux) is needed, or CHROMATIC_ARCHIVE=DIR with an archive in it"
    prove_and_build
    native=$shipped
}

# Links the crate with DIR's library, by cargo's own way for a crate that has `links`: the build script does not run.
linked() { # KIND DIR TRIPLE SUBCOMMAND WORDS...
    kind=$1 dir=$2 triple=$3
    shift 3
    cargo --config "target.$triple.$lib.rustc-link-lib=['$kind=$lib']" --config "target.$triple.$lib.rustc-link-search=['native=$dir']" "$@"
}
