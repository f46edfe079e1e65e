# Sourced by host/test: the crate as a stranger takes it, from a fresh crate in a temporary folder that names it by its path.

dependent() {
    strange=$(mktemp -d)
    trap 'rm -rf "$strange"' EXIT
    log=$target/dependent.log
    one "README.md's program in a fresh crate prints what the page says" "$log" pasted "$root/README.md" one
    one "host/README.md's program in a fresh crate prints what the page says" "$log" pasted "$root/host/README.md" two
    one "and so does its program of the send limit" "$log" pasted "$root/host/README.md" three '### The send limit'
    one "and its program for more slots" "$log" pasted "$root/host/README.md" six '### How large'
    one "and README.md's" "$log" pasted "$root/README.md" four '### The send limit'
    one "and host/README.md's of a span of keys" "$log" pasted "$root/host/README.md" five '### A span of keys'
    one "the crate brings no other crate" "$log" no_other_crate
    one "the archive's folder by CHROMATIC_ARCHIVE, whole and relative, without rt" "$log" folder_named
    if [ -n "$shipped" ]; then
        one "host/archive prints the folder where the build script looks" "$log" archive_folder
    fi
    one "without an archive the build says what to run" "$log" archive_missing
    if command -v objcopy >/dev/null && command -v ar >/dev/null; then
        one "a replaced archive is noticed, and one of another interface does not link" "$log" archive_replaced
        one "an archive for another processor is refused by name" "$log" archive_foreign
    else
        not_run "archives of another interface and for another processor" "objcopy and ar are not on the PATH"
    fi
    one "the crate in a workspace that has this repository below it" "$log" in_a_workspace
    one "the crate without std and without an allocator" "$log" bare
    one "the crate with std: a saved set as a Vec" "$log" with_std
    one "README.md's line for C" "$log" line_for_c
    one "in C a result that is not used is a warning" "$log" c_unused
    one "in C the old name of the third figure, which has another meaning now, does not compile" "$log" c_old_figure
    if [ -n "$shipped" ]; then one "the library calls no allocator" "$log" no_allocator; fi
    one "a dependent's build script is told where the C header is" "$log" header_found
}

fresh_crate() { # FOLDER [HOST [PAGE]]: without a program; the dependency as README.md, or that page, gives it
    mkdir -p "$1/src"
    printf '[package]\nname = "stranger"\nversion = "0.1.0"\nedition = "2021"\n\n' >"$1/Cargo.toml"
    block toml "${3:-$root/README.md}" | sed "s,where/this/is/host,${2:-$root/host}," >>"$1/Cargo.toml"
}
block() { # LANGUAGE FILE [HEADING]: the first such block of a page, or after that heading; it may stand in a list
    awk -v fence="\`\`\`$1" -v heading="${3-}" '
        heading != "" { if ($0 == heading) heading = ""; next }
        { line = $0; sub(/^ +/, "", line) } line == fence { inside = 1; next } line ~ /^```/ && inside { exit } inside' "$2"
}
# Runs cargo in a folder as a user's shell would, with nothing of ours in its environment but what stands before it.
cargo_in() { # FOLDER SUBCOMMAND...
    folder=$1
    shift
    (cd "$folder" && cargo "$@" --offline --quiet)
}

pasted() { # PAGE NAME [HEADING]
    fresh_crate "$strange/$2" "$root/host" "$1"
    block rust "$1" "${3-}" >"$strange/$2/src/main.rs"
    block text "$1" "${3-}" >"$strange/$2/expected"
    [ -s "$strange/$2/expected" ] || { echo "$1 does not say what its program prints"; return 1; }
    cargo_in "$strange/$2" run >"$strange/$2/printed" || return 1
    diff "$strange/$2/expected" "$strange/$2/printed"
}

no_other_crate() { # of the first one's
    grep '^name = ' "$strange/one/Cargo.lock"
    [ "$(grep -c '^name = ' "$strange/one/Cargo.lock")" -eq 2 ]
}

archive_folder() {
    looks=$root/target/staticlib
    [ "$("$root/host/archive")" = "$looks" ] && [ -f "$looks/lib$lib.a" ] || return 1
    for words in now '--help now'; do
        # shellcheck disable=SC2086
        ! "$root/host/archive" $words >/dev/null 2>&1 || { echo "it takes: $words"; return 1; }
    done
    ln -s "$root/host/archive" "$strange/linked"
    ln -s linked "$strange/linked again"
    (cd / && CDPATH=/tmp "$strange/linked again" --help) | grep -q '^host/archive: proves'
}

folder_named() {
    fresh_crate "$strange/named"
    block rust "$root/README.md" >"$strange/named/src/main.rs"
    mkdir -p "$strange/named/some folder" "$strange/no_rt"
    cp "$native/lib$lib.a" "$strange/named/some folder"
    printf '#!/bin/sh\necho "rt was called" >&2\nexit 1\n' >"$strange/no_rt/rt"
    chmod +x "$strange/no_rt/rt"
    mkdir -p "$strange/named/none"
    PATH="$strange/no_rt:$PATH" CHROMATIC_ARCHIVE="$strange/named/some folder" cargo_in "$strange/named" run || return 1
    # It is the folder that counts, and it is looked at again when the variable changes: one without an archive is refused, though the
    # repository has one. A relative one goes by where cargo is, and not by what the shell says.
    no_archive_in none "$strange/named/none" || return 1
    CHROMATIC_ARCHIVE="some folder" cargo_in "$strange/named" run || return 1
    no_archive_in none "$strange/named/none" || return 1
    (cd "$strange/named" && PWD=/ CHROMATIC_ARCHIVE="some folder" cargo run --offline --quiet) || return 1
    no_archive_in "$strange/named/none" "$strange/named/none" || return 1
    ! CHROMATIC_ARCHIVE="some folder/lib$lib.a" cargo_in "$strange/named" run >"$strange/said" 2>&1 || { echo "a file is taken for a folder"; return 1; }
    grep -qF "CHROMATIC_ARCHIVE names a file: name the folder that it is in." "$strange/said" || { cat "$strange/said"; return 1; }
    [ -z "$shipped" ] || CHROMATIC_ARCHIVE='' cargo_in "$strange/named" run # as if it were not set
}
no_archive_in() { # GIVEN FOLDER
    ! CHROMATIC_ARCHIVE=$1 cargo_in "$strange/named" run >"$strange/said" 2>&1 || { echo "a folder without an archive is taken"; return 1; }
    grep -qF "there is no archive $2/lib$lib.a" "$strange/said" && grep -qF "CHROMATIC_ARCHIVE names that folder" "$strange/said" || { cat "$strange/said"; return 1; }
}

archive_replaced() {
    fresh_crate "$strange/replaced"
    block rust "$root/README.md" >"$strange/replaced/src/main.rs"
    there=$strange/replaced/archive
    mkdir -p "$there"
    cp "$native/lib$lib.a" "$there"
    CHROMATIC_ARCHIVE=$there cargo_in "$strange/replaced" run || return 1 # the same words each time: the archive alone changes
    sleep 1 # cargo goes by times
    other_interface "$there/lib$lib.a" || return 1
    does_not_link env CHROMATIC_ARCHIVE="$there" cargo build --offline --quiet --manifest-path "$strange/replaced/Cargo.toml" || return 1
    # each function of raw.rs by itself
    for call in 'prepare(&mut [])' 'audit(&[])' 'report(&[], 1)' 'batch(&mut [], &[], &mut [])' 'save(&[], &mut [])' 'load(&mut [], &[])' \
        'may_send(&mut [], 1, 0, 1)' 'clear_notice(&mut [], 1)'; do
        echo "fn main() { println!(\"{}\", chromatic::raw::$call); }" >"$strange/replaced/src/main.rs"
        does_not_link env CHROMATIC_ARCHIVE="$there" cargo build --offline --quiet --release --manifest-path "$strange/replaced/Cargo.toml" || return 1
    done
    # a C program that includes the header and does not call the function, also where the linker drops what is not used
    does_not_link c_program writes_nothing -std=c11 "$there" || return 1
    does_not_link c_program writes_nothing "-std=c11 -ffunction-sections -fdata-sections -Wl,--gc-sections" "$there" || return 1
    sleep 1
    cp "$native/lib$lib.a" "$there"
    block rust "$root/README.md" >"$strange/replaced/src/main.rs"
    CHROMATIC_ARCHIVE=$there cargo_in "$strange/replaced" run
}
does_not_link() { # COMMAND...
    ! "$@" >"$strange/said" 2>&1 || { echo "it links with an archive of another interface: $*"; return 1; }
    grep -q "undefined.*chromatic_interface_$interface" "$strange/said" || { cat "$strange/said"; return 1; }
}
# The archive with its interface's name changed.
other_interface() { # ARCHIVE
    interface=$(sed -n 's/^uint32_t chromatic_interface_\([0-9]*\)(void);/\1/p' "$root/host/include/chromatic.h")
    [ -n "$interface" ] || { echo "the header names no interface"; return 1; }
    objcopy --redefine-sym "chromatic_interface_$interface=chromatic_interface_0" "$1"
}

archive_missing() {
    mkdir -p "$strange/copy/host"
    cp -R "$root/host/Cargo.toml" "$root/host/Cargo.lock" "$root/host/build.rs" "$root/host/src" "$root/host/README.md" "$strange/copy/host"
    fresh_crate "$strange/missing" "$strange/copy/host"
    echo 'fn main() {}' >"$strange/missing/src/main.rs"
    ! (unset CHROMATIC_ARCHIVE && cargo_in "$strange/missing" build) >"$strange/said" 2>&1 || { echo "it builds without an archive"; return 1; }
    cat "$strange/said"
    grep -qF "Make it with $strange/copy/host/archive (it needs the Rattle toolchain's rt and takes some minutes), or set CHROMATIC_ARCHIVE to the folder that has one." "$strange/said" || return 1
    # and with one it does
    CHROMATIC_ARCHIVE=$native cargo_in "$strange/missing" build
}

archive_foreign() {
    remedy="Take the one that host/archive makes on a machine of this build's kind, $machine: $root/host/archive"
    fresh_crate "$strange/foreign"
    echo 'fn main() {}' >"$strange/foreign/src/main.rs"
    mkdir -p "$strange/foreign/archive"
    # An ELF object's first bytes, up to its processor: 62 is x86-64, 183 (octal 267) aarch64.
    case $machine in x86_64) number='\267' other=aarch64 ;; *) number='\076' other=x86_64 ;; esac
    printf '\177ELF\002\001\001\000\000\000\000\000\000\000\000\000\001\000'"$number"'\000' >"$strange/foreign/one.o"
    (cd "$strange/foreign" && ar rc "archive/lib$lib.a" one.o) || return 1
    ! CHROMATIC_ARCHIVE=archive cargo_in "$strange/foreign" build >"$strange/said" 2>&1 || { echo "it builds"; return 1; }
    grep -qF "is made for $other, and this build is for $machine" "$strange/said" && grep -qF "$remedy" "$strange/said" || { cat "$strange/said"; return 1; }
    sleep 1
    echo 'no archive' >"$strange/foreign/archive/lib$lib.a"
    ! CHROMATIC_ARCHIVE=archive cargo_in "$strange/foreign" build >"$strange/said" 2>&1 || { echo "it builds"; return 1; }
    grep -qF "is no archive of object files for x86_64 or aarch64" "$strange/said" && grep -qF "$remedy" "$strange/said" || { cat "$strange/said"; return 1; }
    # for another system, the build script by itself
    rustc --edition 2021 -o "$strange/build" "$root/host/build.rs" || return 1
    ! env -u CHROMATIC_ARCHIVE CARGO_MANIFEST_DIR="$root/host" CARGO_CFG_TARGET_ARCH="$machine" CARGO_CFG_TARGET_OS=other "$strange/build" >/dev/null 2>"$strange/said" || return 1
    grep -qF "the library is made for Linux on x86_64 or aarch64, and this build is for other on $machine" "$strange/said" || { cat "$strange/said"; return 1; }
}

# As a submodule of a workspace would lie: below its root.
in_a_workspace() {
    mkdir -p "$strange/whole/repository/host"
    (cd "$root/host" && cp -R Cargo.toml Cargo.lock build.rs src README.md cousin timing "$strange/whole/repository/host")
    printf '[workspace]\nmembers = ["app"]\nresolver = "2"\n' >"$strange/whole/Cargo.toml"
    fresh_crate "$strange/whole/app" ../repository/host
    block rust "$root/README.md" >"$strange/whole/app/src/main.rs"
    for folder in "$strange/whole" "$strange/whole/repository/host" "$strange/whole/repository/host/cousin" "$strange/whole/repository/host/timing"; do
        (cd "$folder" && CHROMATIC_ARCHIVE=$native cargo build --offline) >"$strange/said" 2>&1 && ! grep -i warning "$strange/said" || { echo "in $folder:"; cat "$strange/said"; return 1; }
    done
}

# std, or alloc without an allocator, would bring a second panic handler or none.
bare() {
    cat >"$strange/bare.rs" <<'EOF'
#![no_std]
#[panic_handler]
fn panic(_: &core::panic::PanicInfo) -> ! {
    loop {}
}
#[no_mangle]
pub extern "C" fn marked(words: &mut [u32; 12]) -> bool {
    chromatic::Pool::resume(&mut words[..]).is_ok_and(|mut pool| matches!(pool.insert(1), Ok(chromatic::Inserted::NewlyMarked(_))))
}
#[no_mangle]
pub extern "C" fn permitted(words: &mut [u32; 12], notice: u32, resident: u32) -> bool {
    let text = chromatic::Text { notice, resident };
    chromatic::Pool::resume(&mut words[..]).is_ok_and(|mut pool| matches!(pool.may_send(text, 3), Ok(chromatic::MaySend::Yes(_))))
}
#[no_mangle]
pub extern "C" fn restarted(words: &mut [u32; 12], saved: &mut [u8; chromatic::Pool::saved_bytes_for(2)]) -> bool {
    chromatic::Pool::load(&mut words[..], saved).is_ok_and(|pool| pool.save(saved).is_ok())
}
EOF
    rustc --edition 2021 --crate-type staticlib -C panic=abort -O -o "$strange/libbare.a" --extern chromatic="$target/native/release/libchromatic.rlib" "$strange/bare.rs"
}

with_std() {
    fresh_crate "$strange/with_std"
    sed 's,^chromatic = { ,&features = ["std"]\, ,' "$strange/with_std/Cargo.toml" >"$strange/toml" && mv "$strange/toml" "$strange/with_std/Cargo.toml"
    cat >"$strange/with_std/src/main.rs" <<'EOF'
fn main() -> Result<(), chromatic::Refused> {
    let pool = chromatic::Pool::prepare(vec![0; chromatic::Pool::words_for(127)])?;
    assert_eq!(pool.save_to_vec()?, [127, 0]);
    Ok(())
}
EOF
    cargo_in "$strange/with_std" run
}

line_for_c() {
    sed 's,"\.\./include/chromatic\.h",<chromatic.h>,' "$root/host/tests/header.c" >"$strange/your.c"
    line=$(sed -n 's,^\(cc .*\) your\.c \(.*\)$,\1 "$strange/your.c" \2,p' "$root/README.md")
    [ -n "$line" ] || { echo "README.md has no such line"; return 1; }
    [ -n "$shipped" ] || line=$(printf '%s\n' "$line" | sed 's/"$(host\/archive)"/"$native"/; s/$/ -lpthread -ldl -lm/')
    (cd "$root" && eval "$line -o '$strange/from_c'") && "$strange/from_c"
}

c_unused() {
    for call in 'prepare(p, 8)' 'audit(p, 8)' 'report(p, 8, 1)' 'batch(p, 8, 0, 0, 0, 0)' 'save(p, 8, 0, 0)' 'load(p, 8, 0, 0)' \
        'may_send(p, 8, 1, 0, 1)' 'clear_notice(p, 8, 1)'; do
        printf '#include <chromatic.h>\nuint64_t f(uint32_t *p) { return chromatic_%s; }\n' "$call" >"$strange/used.c"
        printf '#include <chromatic.h>\nvoid f(uint32_t *p) { chromatic_%s; }\n' "$call" >"$strange/unused.c"
        cc -Wall -Werror -I "$root/host/include" -c -o "$strange/c.o" "$strange/used.c" || return 1
        ! cc -Wall -Werror -I "$root/host/include" -c -o "$strange/c.o" "$strange/unused.c" >"$strange/said" 2>&1 || { echo "no warning: $call"; return 1; }
        grep -q unused-result "$strange/said" || { cat "$strange/said"; return 1; }
    done
}

c_old_figure() {
    printf '#include <chromatic.h>\nuint64_t f(const uint32_t *p) { return chromatic_report(p, 8, CHROMATIC_EXCESS_WEIGHT); }\n' >"$strange/new.c"
    sed 's/EXCESS_WEIGHT/OVERWEIGHTED/' "$strange/new.c" >"$strange/old.c"
    cc -Wall -Werror -I "$root/host/include" -c -o "$strange/c.o" "$strange/new.c" || return 1
    ! cc -I "$root/host/include" -c -o "$strange/c.o" "$strange/old.c" >"$strange/said" 2>&1 || { echo "it compiles"; return 1; }
    cat "$strange/said"
    # and the compiler does not put the new name in its place: whoever took that would not read what it means
    grep -q CHROMATIC_OVERWEIGHTED "$strange/said" && ! grep -q CHROMATIC_EXCESS_WEIGHT "$strange/said"
}

no_allocator() {
    nm -u "$native/lib$lib.a" >"$strange/said" || return 1
    ! grep -i -E 'alloc|mmap|sbrk' "$strange/said"
}

header_found() {
    fresh_crate "$strange/header"
    echo 'fn main() { let _ = chromatic::Pool::words_for(1); }' >"$strange/header/src/main.rs"
    cat >"$strange/header/build.rs" <<'EOF'
fn main() {
    let include = std::env::var("DEP_CHROMATIC_INCLUDE").expect("DEP_CHROMATIC_INCLUDE");
    assert!(std::path::Path::new(&include).join("chromatic.h").is_file());
}
EOF
    cargo_in "$strange/header" run
}
