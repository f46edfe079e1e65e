# Sourced by host/test: tests/misuse has the faults of a dispatcher, one a file. One that says "error: WORDS" compiles with no
# error but that; mended (lines with FAULT away, MENDED lines in), it compiles without a warning, so the fault alone is what the
# compiler refuses. One that says "compiles" does so without a warning, and runs, and what it asserts holds. The crate's first page
# (src/lib.rs) names each file, and no other.

misuse() {
    rlib=$(native_cargo build --lib --message-format short 2>"$target/misuse.log" && ls "$target"/native/release/libchromatic.rlib) || {
        cat "$target/misuse.log"
        count "the faults of a dispatcher" 0 1
        return
    }
    mkdir -p "$target/misuse"
    one "the crate's page names each fault that is here, and no other" "$target/misuse.log" page_names
    for file in "$root"/host/tests/misuse/*.rs; do
        name=$(basename "$file" .rs)
        wanted=$(sed -n 's,^//! error: ,,p' "$file")
        if [ -n "$wanted" ]; then
            one "does not compile: $name" "$target/misuse.log" refused_for "$file" "$wanted"
        else
            one "still compiles: $name" "$target/misuse.log" still_runs "$file" "$name"
        fi
    done
}

page_names() {
    ls "$root"/host/tests/misuse/*.rs | sed 's,.*/,,; s,\.rs$,,' | sort >"$target/misuse/there"
    # the last column of the page's two tables
    sed -n 's,^//! |.*| \(`[^|]*`\) |$,\1,p' "$root/host/src/lib.rs" | tr -d '` ' | tr ',' '\n' | sort >"$target/misuse/named"
    diff "$target/misuse/there" "$target/misuse/named" || return 1
    # and with its error
    for file in "$root"/host/tests/misuse/*.rs; do
        name=$(basename "$file" .rs)
        error=$(sed -n 's,^//! error: ,,p' "$file")
        case $error in '') continue ;; 'that must be used') error=unused_must_use ;; esac
        sed -n '/^\/\/! |.*`'"$name"'`/p' "$root/host/src/lib.rs" | grep -qF -- "$error" || { echo "the page does not give $error for $name"; return 1; }
    done
}

against() { # TYPE OUTPUT FILE
    rustc --edition 2021 --crate-name fault --crate-type "$1" --error-format short -D warnings --extern chromatic="$rlib" -L "dependency=$target/native/release/deps" -o "$2" "$3"
}

refused_for() { # FILE WORDS
    if against rlib "$target/misuse/fault.rlib" "$1" >"$target/misuse/said" 2>&1; then
        echo "it compiles"
        return 1
    fi
    cat "$target/misuse/said"
    others=$(grep -E '(^|: )(error|warning)(\[|:)' "$target/misuse/said" | grep -vF -- "$2" | grep -v '^error: aborting due to' || true)
    [ -z "$others" ] && grep -qF -- "$2" "$target/misuse/said" || { echo "it fails otherwise than by '$2'"; return 1; }
    # as many as the file has places: lines with FAULT, or else with MENDED
    word=FAULT
    grep -q "$word" "$1" || word=MENDED
    places=$(grep -c "$word" "$1" || true)
    found=$(grep -E '(^|: )error(\[|:)' "$target/misuse/said" | grep -v '^error: aborting due to' | cut -d: -f2 | sort -u | wc -l)
    [ "$found" -eq "$places" ] || { echo "errors on $found lines, and faults on $places"; return 1; }
    sed -e '/FAULT/d' -e 's,// MENDED ,,' "$1" >"$target/misuse/mended.rs"
    against rlib "$target/misuse/mended.rlib" "$target/misuse/mended.rs" || { echo "mended, it does not compile: the fault is not what was refused"; return 1; }
}

still_runs() { # FILE NAME
    grep -q '^//! compiles' "$1" || { echo "the file says neither 'error:' nor 'compiles'"; return 1; }
    against bin "$target/misuse/$2" "$1" && "$target/misuse/$2"
}
