# The tests of ./marks (sourced by host/test, POSIX sh): the program against the library, then ./marks in a folder that is made for it.

# The program ./marks prints on each stored input what the library answers there.
program_against_library() { # COMMAND...: cargo, so far as 'run'
    log=$target/program.log
    if [ ! -d "$root/crates/marks" ]; then
        not_run "the program against the library" "there is no program here"
        return
    fi
    if [ "$which" = cousin ] && ! command -v rt >/dev/null && [ ! -x "$root/crates/marks/out/marks" ]; then
        not_run "the program against the library" "the program is not built, and there is no rt"
        return
    fi
    if ! "$@" --quiet --example marks </dev/null >"$log" 2>&1 || ! "$root/marks" </dev/null >>"$log" 2>&1; then
        cat "$log"
        count "the program builds" 0 1
        return
    fi
    for input in "$root"/host/tests/program/*.in; do
        one "the program against the library, $(basename "$input" .in)" "$log" same_lines "$input" "$@"
    done
    three=$root/host/tests/program/three_lines.in
    one "the program on a standard input that is a directory" "$log" program_says "standard input cannot be read" "$root/host" "$target/program.out"
    one "the program on a closed standard input" "$log" program_says "standard input cannot be read" closed "$target/program.out"
    one "the program on a full standard output" "$log" program_says "standard output cannot be written" "$three" /dev/full
    one "the program with nothing to print on a full standard output" "$log" nothing_printed
    one "the program on a pipe that nobody reads" "$log" pipe_closed "$three"
    one "the program on a pipe that nobody reads, where that signal is ignored" "$log" pipe_ignored "$three"
    one "the program leaves what comes after 4,096 bytes" "$log" reads_4096
    one "README.md's line for ./marks" "$log" readme_example
}
reads_4096() {
    input=$root/host/tests/program/more_than_4096_bytes.in
    left=$({ "$root/marks" >/dev/null; wc -c; } <"$input")
    echo "left: $left"
    [ "$((left))" -eq "$(($(wc -c <"$input") - 4096))" ]
}
readme_example() {
    line=$(sed -n 's,^\(printf .* | \./marks\) .*prints 0 1\, 0 3\, 0 2$,\1,p' "$root/README.md")
    [ -n "$line" ] || { echo "README.md has no such line"; return 1; }
    [ "$(cd "$root" && eval "$line" | tr '\n' ' ')" = '0 1 0 3 0 2 ' ]
}
# Beside an input there may be what is printed, known by hand; where the batch is refused, there is.
same_lines() { # INPUT COMMAND...
    input=$1 known=${1%.in}.expected
    shift
    "$@" --quiet --example marks <"$input" >"$target/program.library" && "$root/marks" <"$input" >"$target/program.out" && diff "$target/program.library" "$target/program.out" || return 1
    if [ -f "$known" ]; then
        diff "$known" "$target/program.out"
    elif grep '^refused' "$target/program.out"; then
        echo "which byte that should be is not stored in $known"
        return 1
    fi
}

# What cannot be read or written the program says on standard error, and ./marks ends with status 1.
program_says() { # MESSAGE INPUT OUTPUT: the files that are standard input (or 'closed') and standard output
    said=$target/program.said
    : >"$target/program.out"
    status=0
    if [ "$2" = closed ]; then "$root/marks" <&- >"$3" 2>"$said" || status=$?; else "$root/marks" <"$2" >"$3" 2>"$said" || status=$?; fi
    echo "status $status, said: $(cat "$said")"
    [ "$status" -eq 1 ] && [ "$(cat "$said")" = "marks: $1" ] && [ ! -s "$target/program.out" ]
}
nothing_printed() {
    "$root/marks" </dev/null >/dev/full 2>"$target/program.said" && [ ! -s "$target/program.said" ]
}

# A pipe that nobody reads any more ends it by its signal: a status that is not 0, and no word.
pipe_closed() { # INPUT
    status=$target/program.status
    { sleep 1; "$root/marks" <"$1" 2>"$target/program.said" && echo 0 >"$status" || echo $? >"$status"; } | true
    echo "status $(cat "$status"), said: $(cat "$target/program.said")"
    [ "$(cat "$status")" -eq 141 ] && [ ! -s "$target/program.said" ] # 128 and SIGPIPE, 13
}
pipe_ignored() { # INPUT
    status=$target/program.status
    { sleep 1; (trap '' PIPE; "$root/marks" <"$1" 2>"$target/program.said" && echo 0 >"$status" || echo $? >"$status"); } | true
    echo "status $(cat "$status"), said: $(cat "$target/program.said")"
    [ "$(cat "$status")" -eq 1 ] && [ "$(cat "$target/program.said")" = 'marks: standard output cannot be written' ]
}

# ./marks itself, with a small program and an rt that are made here: nothing is proved. Each test begins with a folder that has been
# built, its sources of January 2019 and its program of June, as a change since 2020 must not be.
program_alone() {
    alone=$(mktemp -d) # not below target/: another user must reach it
    repo="$alone/a folder"
    without=$alone/bin
    with=$alone/rt:$alone/bin
    make_tools
    log=$target/program.log
    one "./marks builds, and says how far it is meanwhile" "$log" alone_builds
    one "./marks that is up to date calls no rt and says nothing" "$log" alone_quiet
    one "./marks after a change that rt sees nothing in builds once" "$log" alone_unchanged
    one "./marks sees what changes while it builds" "$log" alone_edited
    one "./marks sees a source that is renamed, and no must-fail edit and no other crate" "$log" alone_sources
    one "./marks builds a program again that was removed" "$log" alone_removed
    one "./marks without rt runs what is built" "$log" alone_no_rt
    one "./marks without rt says that the program is older" "$log" alone_no_rt_older
    one "./marks without rt or sources, and nothing built, says what is missing" "$log" alone_nothing
    one "./marks takes the program that rt ci built" "$log" alone_of_ci
    one "./marks on another processor says that the toolchain is for x86-64" "$log" alone_machine
    one "./marks --help and -h" "$log" alone_help
    one "./marks with another argument" "$log" alone_argument
    one "./marks through links, from elsewhere" "$log" alone_links
    one "./marks that is built writes nothing" "$log" alone_writes_nothing
    one "./marks shows the log of the build that failed" "$log" alone_fails
    one "./marks runs no program of a build that failed" "$log" alone_half
    one "./marks twice at once, both failing: each shows its own log" "$log" alone_two_logs
    one "./marks that cannot run the program" "$log" alone_not_run
    if command -v flock >/dev/null; then
        one "./marks twice at once builds once" "$log" alone_one_build
    else
        not_run "./marks twice at once builds once" "there is no flock"
    fi
    if script --version 2>/dev/null | grep -q util-linux; then
        one "./marks on a terminal gives a hint" "$log" alone_terminal
    else
        not_run "./marks on a terminal" "there is no script(1) of util-linux"
    fi
    if as_other test -r "$repo/marks" 2>/dev/null; then
        one "./marks in a checkout that cannot be written" "$log" alone_read_only
    else
        not_run "./marks in a checkout that cannot be written" "root needs setpriv to be another user"
    fi
    if [ -x "$root/crates/marks/out/marks" ]; then
        one "the example of ./marks --help" "$log" alone_example
        one "the program on a closed standard output" "$log" closed_output
    else
        not_run "the example of ./marks --help" "there is no program"
    fi
    chmod -R u+w "$alone"
    rm -rf "$alone"
}
as_other() { # COMMAND...: as a user who is not root
    if [ "$(id -u)" = 0 ]; then setpriv --reuid=65534 --regid=65534 --clear-groups "$@"; else "$@"; fi
}

make_tools() {
    chmod 755 "$alone"
    mkdir "$alone/bin" "$alone/rt" "$alone/spies"
    for tool in awk cat cp chmod date dirname env find flock grep head id mkdir mktemp readlink rm setpriv sh sleep touch wc; do
        at=$(command -v "$tool") || continue
        case $at in /*) ln -s "$at" "$alone/bin/$tool" ;; esac
    done
    printf '#!/bin/sh\necho "${ALONE_MACHINE:-x86_64}"\n' >"$alone/bin/uname"
    # An rt that builds as ALONE_RT says, and counts its calls.
    cat >"$alone/rt/rt" <<'END'
#!/bin/sh
[ "$*" = run ] && [ -f ../../crates.txt ] && [ -f src/main.rt ] || { echo "rt: not what a build is: $*"; exit 2; }
echo "$$" >>"$ALONE/calls"
cp "$ALONE/said" "$ALONE/said.first"
make() { mkdir -p out; printf '#!/bin/sh\ncat >/dev/null\necho built\n' >out/marks; chmod +x out/marks; : >out/marks.stamp; }
proved() { printf '%s\n' "fn $1::f: proved" "crate $1: modules loaded=0 checked=1" 'logic=proved functions=1 sum=0'; }
case $ALONE_RT in
good) proved below; make; proved marks; out/marks ;;
waits)
    proved below
    n=0
    until [ -e "$ALONE/go" ]; do n=$((n + 1)); [ $n -le 50 ] || { echo 'nothing was said meanwhile'; exit 1; }; sleep 0.1; done
    make
    proved marks
    ;;
unchanged) echo 'rt: nothing has changed since the last proved build, by out/marks.stamp, so nothing is checked now' ;;
stamped) [ -f out/marks.stamp ] || make ;;
edited) sleep 0.1; touch ../below/src/lib.rt; sleep 0.1; make ;;
slow) sleep 0.5; make ;;
half) make; rm out/marks.stamp; echo 'the link FAILED'; exit 1 ;;
fails) sleep 0.3; echo "the log of $$"; sleep 0.3; echo 'fn below::f: not proved'; exit 1 ;;
esac
END
    for spy in rt mkdir mktemp touch rm cp; do printf '#!/bin/sh\necho "%s $*" >>"$ALONE/spied"\nexit 1\n' "$spy" >"$alone/spies/$spy"; done
    chmod +x "$alone"/bin/uname "$alone"/rt/* "$alone"/spies/*
    touch -t 202001010000 "$alone/2020"
    fresh
}
fresh() {
    rm -rf "$repo" "$alone/calls" "$alone/go" "$alone"/said*
    : >"$alone/calls"
    : >"$alone/spied"
    chmod 666 "$alone/calls" "$alone/spied"
    mkdir -p "$repo/crates/marks/src" "$repo/crates/marks/must-fail" "$repo/crates/below/src" "$repo/crates/below/specs" "$repo/crates/other/src" "$repo/crates/marks/out"
    built=$repo/crates/marks/out
    cp "$root/marks" "$repo/marks"
    printf '# two crates\nbelow:\nother: below\nmarks: below anyhow\n' >"$repo/crates.txt"
    : >"$repo/crates/marks/src/main.rt"
    : >"$repo/crates/marks/must-fail/one.edit"
    : >"$repo/crates/below/src/lib.rt"
    : >"$repo/crates/other/src/lib.rt"
    : >"$built/marks.stamp"
    printf '#!/bin/sh\ncat >/dev/null\necho stored\n' >"$built/marks"
    chmod -R a+rX "$repo"
    chmod +x "$repo/marks" "$built/marks"
    find "$repo" -depth -exec touch -t 201901010000 {} +
    touch -t 201906010000 "$built/marks"
}
alone_run() { # PATH RT COMMAND...: the status to $status, what is written to out and said
    way=$1 kind=$2 status=0
    shift 2
    (export ALONE="$alone" ALONE_RT="$kind" PATH="$way"; "$@") </dev/null >"$alone/out" 2>"$alone/said" || status=$?
    echo "$*: status $status, printed: $(cat "$alone/out"), said: $(cat "$alone/said")"
}
expect() { # STATUS PRINTED: what the last run gave
    [ "$status" = "$1" ] && [ "$(cat "$alone/out")" = "$2" ]
}
said() { grep -qF -e "$1" "$alone/said" || { echo "it did not say: $1"; return 1; }; }
calls() { [ "$(grep -c . "$alone/calls")" = "$1" ] || { echo "rt was called $(grep -c . "$alone/calls") times"; return 1; }; }
untouched() { # no file or folder was made, changed or touched
    [ -z "$(find "$repo" -newer "$alone/2020")" ] || { find "$repo" -newer "$alone/2020"; return 1; }
}
newer_source() { touch "$repo/crates/below/src/lib.rt"; }

alone_builds() {
    fresh
    rm -rf "$built"
    { n=0; until grep -qs '^marks: 1 of at most 2 crates proved, below the last' "$alone/said"; do n=$((n + 1)); [ $n -le 50 ] || break; sleep 0.1; done; [ $n -gt 50 ] || : >"$alone/go"; } &
    alone_run "$with" waits "$repo/marks"
    wait $!
    expect 0 built && said '2 of at most 2 crates proved, marks the last' && calls 1 && grep -q '^marks: building and proving .* minutes' "$alone/said.first" &&
        [ "$(grep -vc '^marks: ' "$alone/said")" = 0 ] && [ "$(echo "$built"/*)" = "$built/marks $built/marks.stamp" ] && [ ! -e "$repo/target" ]
}
alone_quiet() {
    fresh
    alone_run "$with" good "$repo/marks"
    expect 0 stored && [ ! -s "$alone/said" ] && calls 0
}
alone_unchanged() {
    fresh
    newer_source
    alone_run "$with" unchanged "$repo/marks"
    expect 0 stored && calls 1 || return 1
    alone_run "$with" unchanged "$repo/marks"
    expect 0 stored && calls 1 && [ ! -s "$alone/said" ]
}
alone_edited() {
    fresh
    newer_source
    alone_run "$with" edited "$repo/marks"
    expect 0 built && calls 1 || return 1
    alone_run "$with" good "$repo/marks"
    expect 0 built && calls 2
}
alone_sources() {
    fresh
    touch "$repo/crates/other/src/lib.rt" "$repo/crates/marks/must-fail/one.edit"
    alone_run "$with" good "$repo/marks"
    expect 0 stored && calls 0 || return 1
    mkdir -p "$repo/crates/below/out" "$repo/crates/marks/out" && : >"$repo/crates/below/out/work"
    alone_run "$with" good "$repo/marks"
    expect 0 stored && calls 0 || return 1
    mv "$repo/crates/below/src/lib.rt" "$repo/crates/below/src/renamed.rt"
    alone_run "$with" good "$repo/marks"
    expect 0 built && calls 1 || return 1
    mv "$repo/crates/below/src" "$repo/crates/below/source"
    alone_run "$with" good "$repo/marks"
    expect 0 built && calls 2
}
alone_removed() {
    fresh
    rm "$built/marks"
    alone_run "$with" stamped "$repo/marks"
    expect 0 built
}
alone_no_rt() {
    fresh
    alone_run "$without" - "$repo/marks"
    expect 0 stored && [ ! -s "$alone/said" ] && untouched
}
alone_no_rt_older() {
    fresh
    newer_source
    alone_run "$without" - "$repo/marks"
    expect 0 stored && said 'older than its sources' && said "'rt' is not on the PATH"
}
alone_nothing() {
    fresh
    rm -rf "$built"
    alone_run "$without" - "$repo/marks"
    expect 2 '' && said 'not built' && said 'Install the Rattle toolchain' && [ ! -e "$built" ] || return 1
    rm "$repo/crates.txt"
    alone_run "$with" good "$repo/marks"
    expect 2 '' && said 'not built' && said 'no crates.txt' && calls 0 && [ ! -e "$built" ]
}
# What rt ci leaves has no stamp: Rattle's own compiler has built it once more behind. Without that it was broken off.
alone_of_ci() {
    fresh
    rm "$built/marks.stamp"
    touch "$built/marks.by-rattle"
    touch -r "$built/marks" "$built/marks.by-rattle"
    alone_run "$with" good "$repo/marks"
    expect 0 stored && [ ! -s "$alone/said" ] && calls 0 || return 1
    touch -t 201905010000 "$built/marks.by-rattle"
    alone_run "$without" - "$repo/marks"
    expect 0 stored && said 'broken off' || return 1
    alone_run "$with" good "$repo/marks"
    expect 0 built && calls 1 || return 1
    fresh
    rm "$built/marks.stamp"
    alone_run "$with" good "$repo/marks"
    expect 0 built && said 'building and proving' && calls 1
}
alone_machine() {
    for other in aarch64 riscv64; do
        fresh
        alone_run "$with" good env ALONE_MACHINE=$other "$repo/marks"
        expect 2 '' && said x86-64 && said "this machine is $other" && calls 0 || return 1
    done
}
alone_help() {
    fresh
    rm -rf "$built"
    for word in -h --help; do
        alone_run "$without" - "$repo/marks" "$word"
        [ "$status" = 0 ] && [ ! -s "$alone/said" ] || return 1
        diff "$root/host/tests/program/help.expected" "$alone/out" || { echo "the help is another: see that it is true, and store it"; return 1; }
        for part in usage: 4,096 256 'seven-bit' '1 search' '2 insert' '3 delete' '4 step' '5 settle' '6 at or above' '7 count' '8 delete span' '64 keys' 'printf ' docs/RULES.md docs/FORMATS.md Status; do
            grep -qF -e "$part" "$alone/out" || { echo "$word lacks: $part"; return 1; }
        done
        for code in 0 1 2 3 4 5 6 7 8 9 10 11 12; do
            grep -qE "(^| )$code  |Codes? .*$code \(" "$alone/out" || { echo "$word lacks code $code"; return 1; }
        done
    done
}
alone_argument() {
    fresh
    for word in --hepl 1 ''; do
        alone_run "$with" good "$repo/marks" "$word"
        expect 2 '' && said usage: && said "'$word'" && calls 0 || return 1
    done
}
alone_links() {
    fresh
    links="$alone/some links"
    rm -rf "$links"
    mkdir -p "$links/deep/er" "$alone/elsewhere"
    ln -s "$repo/marks" "$links/absolute"
    ln -s ../absolute "$links/deep/relative"
    ln -s relative "$links/deep/twice"
    ln -s "../../../a folder/marks" "$links/deep/er/up"
    ln -sfn "$links/deep/er" "$alone/elsewhere/folder"
    for name in "$links/absolute" "$links/deep/relative" "$links/deep/twice" "$links/deep/er/up" "$alone/elsewhere/folder/up"; do
        alone_run "$without" - "$name"
        expect 0 stored && [ ! -s "$alone/said" ] || return 1
    done
    (
        export CDPATH="$alone"
        cd "$links" && alone_run "$without" - ./deep/twice && expect 0 stored && cd / && alone_run "$without:$links" - absolute && expect 0 stored &&
            cd "$alone" && alone_run "$without" - sh 'a folder/marks' && expect 0 stored
    )
}
alone_writes_nothing() {
    fresh
    alone_run "$alone/spies:$without" good "$repo/marks"
    expect 0 stored && [ ! -s "$alone/said" ] && [ ! -s "$alone/spied" ] && untouched
}
alone_read_only() {
    fresh
    chmod -R a-w "$repo"
    alone_run "$with" good as_other "$repo/marks"
    expect 0 stored && [ ! -s "$alone/said" ] || return 1
    newer_source
    alone_run "$with" good as_other "$repo/marks"
    expect 0 stored && said 'older than its sources' && said 'cannot be written' && calls 0 || return 1
    chmod u+w "$repo"
    chmod -R u+w "$repo/crates/marks"
    rm -rf "$built"
    chmod -R a-w "$repo"
    alone_run "$with" good as_other "$repo/marks"
    expect 2 '' && said 'not built' && said 'cannot be written' && calls 0
}
alone_fails() {
    fresh
    newer_source
    echo 'a stale log' >"$built/marks.log"
    alone_run "$with" fails "$repo/marks"
    expect 2 '' && said "the log of $(cat "$alone/calls")" && said 'below::f: not proved' && ! said stale >/dev/null &&
        tail -n 1 "$alone/said" | grep -q "^marks: the program is not built: 'rt run' failed with status 1" &&
        [ "$(echo "$built"/*)" = "$built/marks $built/marks.log $built/marks.stamp" ]
}
alone_half() {
    fresh
    newer_source
    for turn in 1 2; do
        alone_run "$with" half "$repo/marks"
        expect 2 '' && said 'the link FAILED' && calls "$turn" || return 1
        : >"$built/marks.kept"
    done
    alone_run "$without" - "$repo/marks"
    expect 0 built && said 'build that failed'
}
# Both build at once, for the flock of this test locks nothing.
alone_two_logs() {
    fresh
    newer_source
    mkdir -p "$alone/unlocked"
    printf '#!/bin/sh\n' >"$alone/unlocked/flock"
    chmod +x "$alone/unlocked/flock"
    (alone_two 1 fails "$alone/unlocked:$with") &
    alone_two 2 fails "$alone/unlocked:$with"
    wait $!
    cat "$alone/said.1" "$alone/said.2"
    calls 2 && for turn in 1 2; do
        [ "$(cat "$alone/status.$turn")" = 2 ] && [ "$(grep -c '^the log of' "$alone/said.$turn")" = 1 ] && [ "$(grep -c 'not proved' "$alone/said.$turn")" = 1 ] || return 1
    done
    [ "$(grep '^the log of' "$alone/said.1")" != "$(grep '^the log of' "$alone/said.2")" ]
}
alone_two() { # TURN RT PATH
    gave=0
    ALONE=$alone ALONE_RT=$2 PATH=$3 "$repo/marks" </dev/null >"$alone/out.$1" 2>"$alone/said.$1" || gave=$?
    echo "$gave" >"$alone/status.$1"
}
alone_one_build() {
    fresh
    rm -rf "$built"
    (alone_two 1 slow "$with") &
    alone_two 2 slow "$with"
    wait $!
    cat "$alone"/status.[12] "$alone"/out.[12] "$alone"/said.[12]
    calls 1 && [ "$(cat "$alone"/status.[12] | tr '\n' ' ')" = '0 0 ' ] && [ "$(cat "$alone"/out.[12] | tr '\n' ' ')" = 'built built ' ] &&
        grep -q 'another ./marks is building' "$alone"/said.[12]
}
alone_not_run() {
    fresh
    printf '#!%s/nothing\n' "$alone" >"$built/marks"
    alone_run "$with" good "$repo/marks"
    expect 2 '' && said 'cannot be run'
}
alone_terminal() {
    fresh
    rm -f "$alone/out" "$alone/said"
    ALONE=$alone PATH=$without:$PATH timeout 20 script -q -e -c "'$repo/marks' >'$alone/out' 2>'$alone/said'" /dev/null </dev/null && status=0 || status=$?
    echo "status $status, printed: $(cat "$alone/out"), said: $(cat "$alone/said")"
    expect 0 stored && [ "$(cat "$alone/said")" = 'marks: reading a batch from the terminal, end it with Ctrl-D; ./marks --help says what a batch is' ]
}
alone_example() {
    example=$("$root/marks" --help | sed -n 's/^  \(printf .* | \.\/marks\)$/\1/p')
    [ -n "$example" ] && [ "$(cd "$root" && sh -c "$example" | tr '\n' ';')" = '0 1;0 3;0 2;' ]
}
closed_output() {
    status=0
    "$root/marks" <"$root/host/tests/program/three_lines.in" >&- 2>"$target/program.said" || status=$?
    echo "status $status, said: $(cat "$target/program.said")"
    [ "$status" -eq 1 ] && [ "$(cat "$target/program.said")" = "marks: standard output cannot be written" ] && "$root/marks" </dev/null >&-
}
