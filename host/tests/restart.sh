# Sourced by host/test: the example restart. What it prints and what it refuses; and that it comes up with every mark whose text went,
# wherever it was killed or the power was cut: tests/killer.c ends it at each of its calls in turn. Then faults are planted in copies of
# it, and each is seen by one of these tests, for what it is. What the tests of an example of examples/store share stands here too
# (dispatcher.sh).

# Builds the example and the killer, and sets what its tests go by.
service_built() { # EXAMPLE
    service_named "$1"
    log=$target/$1.log
    rm -rf "$area"
    mkdir -p "$area/planted/store"
    program=$target/native/release/examples/$1
    if ! native_cargo build --quiet --example "$1" >"$log" 2>&1 || ! cc -std=gnu11 -Wall -Wextra -Werror -O1 -shared -fPIC -o "$area/killer.so" "$root/host/tests/killer.c" >>"$log" 2>&1; then
        cat "$log"
        count "the example $1 and its killer build" 0 1
        return 1
    fi
}
service_named() { # EXAMPLE
    example=$1 area=$target/$1 store=$target/$1/store
}

restarts() {
    service_built restart || return 0
    one "restart refuses a file that is damaged, of other slots or not there" "$log" refuses_bad_files "$program"
    one "restart keeps out a second service" "$log" keeps_out_a_second "$program"
    one "restart flushes the file, renames, flushes the folder, then sends" "$log" in_order "$program"
    one "restart killed at every call comes up with every mark" "$log" killed_anywhere "$program" before after half
    one "restart comes up with every mark after a power cut at every call" "$log" killed_anywhere "$program" data names
    one "restart comes up with every mark after a full disk at every call" "$log" full_anywhere "$program"
    one "restart killed anywhere while it begins" "$log" killed_in_begin "$program" 6 sends_ten
    planted "the file is written in place" "marks (0 bytes): refused with code 13" 's/File::create(&beside)/File::create(\&there)/; /fs::rename/d' killed_anywhere before after half
    planted "the text goes before the save" "a text too many for 20:" '/^ *store.save(&pool)/,/})?;/d; s/send(mark);/send(mark); store.save(\&pool)?;/' killed_anywhere before after half
    planted "the rename comes before the flush" "marks (0 bytes): refused with code 13" 's/file.sync_all()?;//; s/fs::rename(.*)?;/& file.sync_all()?;/' killed_anywhere data names
    planted "the file is not flushed" "marks (0 bytes): refused with code 13" '/file.sync_all()?;/d' killed_anywhere data names
    planted "the folder is not flushed" "a text too many for 20:" '/self.folder.sync_all()?;/d' killed_anywhere data names
    planted "a failed save is passed over" "a text too many for 30:" 's/store.save(&pool).map_err/let _ = &/; s/})?;/});/' full_anywhere
    planted "the folder is flushed too late" "> fsync FOLDER" 's/self.folder.sync_all()?;//; s/^    folder: File/    pub folder: File/; s/send(mark);/& store.folder.sync_all()?;/' in_order
    planted "an empty set in place of one that is refused" "it comes up" 's/store.load()?/store.load().or_else(|_| chromatic::Pool::prepare(vec![0; chromatic::Pool::words_for(127)]))?/' refuses_bad_files
    planted "no lock is taken" "a second one is not kept out: serve" 's/if !locked(&folder)/if false \&\& !locked(\&folder)/' keeps_out_a_second
    planted "begins over marks that are there" "it begins over what is there" 's/if self.marks().try_exists()/if false \&\& self.marks().try_exists()/' refuses_bad_files
}

# The program with a fault in it does not pass the test, which says so in these words: what fails otherwise has not seen the fault.
planted() { # FAULT SAYS SED TEST [WORDS]: the test is given the program before the words
    one "with a fault the test of $example fails: $1" "$log" seen "$@"
}
seen() { # FAULT SAYS SED TEST [WORDS]
    says=$2 edit=$3 test=$4
    shift 4
    changed=0
    for file in "$example.rs" store/mod.rs; do
        sed "$edit" "$root/host/examples/$file" >"$area/planted/$file"
        cmp -s "$root/host/examples/$file" "$area/planted/$file" || changed=1
    done
    [ "$changed" -eq 1 ] || { echo "the edit changes nothing: $edit"; return 1; }
    rustc --edition 2021 -A warnings --extern chromatic="$target/native/release/libchromatic.rlib" -L "dependency=$target/native/release/deps" -o "$area/planted/$example" "$area/planted/$example.rs" || return 1
    ! "$test" "$area/planted/$example" "$@" >"$area/planted/said" 2>&1 || { echo "the fault is not seen"; return 1; }
    cat "$area/planted/said"
    grep -qF -- "$says" "$area/planted/said" || { echo "it fails otherwise than by '$says'"; return 1; }
}

# What it prints over some runs is what it is known to print.
restart_prints() { # COMMAND...
    service_named restart
    rm -rf "$store"
    {
        service_run "$@" serve </dev/null
        mkdir -p "$store"
        service_run "$@" serve </dev/null
        service_run "$@" begin </dev/null
        printf '10\n20\n10\nten\n' | service_run "$@" serve
        printf '20\n30\n' | service_run "$@" serve
        service_run "$@" begin </dev/null
        printf '%s\n' 4294967295 4294967296 | service_run "$@" serve
        cp "$store/marks" "$store/whole"
        head -c 7 "$store/whole" >"$store/marks"
        echo 40 | service_run "$@" serve
        printf '\011\000' >"$store/marks" # an empty set of 9 slots
        echo 40 | service_run "$@" serve
        cp "$store/whole" "$store/marks"
        seq 63 | service_run "$@" serve | head -n 4
        printf '63\n64\n' | service_run "$@" serve
    } >"$target/restart.out" 2>&1
    diff "$root/host/examples/restart.expected" "$target/restart.out"
}
service_run() { # COMMAND... WORD
    for word do :; done
    echo "\$ $example $word FOLDER"
    status=0
    "$@" "$store" >"$target/$example.said" 2>&1 || status=$?
    sed "s,$store,FOLDER,g" "$target/$example.said"
    [ "$status" -eq 0 ] || echo "(status $status)"
}

with_ten() { # PROGRAM: a folder whose marks are key 10 alone
    rm -rf "$store"
    mkdir -p "$store"
    [ -f "$area/ten" ] || { "$1" begin "$store" && echo 10 | "$1" serve "$store" >/dev/null && mv "$store/marks" "$area/ten"; } || return 1
    cp "$area/ten" "$store/marks"
}
killing() { # AT HOW PROGRAM WORD: killed there
    KILLER_AT=$1 KILLER_HOW=$2 LD_PRELOAD="$area/killer.so" "$3" "$4" "$store"
}

killed_anywhere() { # PROGRAM HOW...
    tried=$1 kills=0
    shift
    printf '10\n20\n30\n' >"$area/keys"
    for how do
        at=0 status=137
        while [ "$status" -eq 137 ]; do
            at=$((at + 1)) status=0
            with_ten "$program" || return 1
            killing "$at" "$how" "$tried" serve <"$area/keys" >"$area/first" 2>"$area/said" || status=$?
            "$tried" serve "$store" <"$area/keys" >"$area/second" 2>>"$area/said" && once "$area/first" "$area/second" || {
                echo "killed at call $at ($how), it printed, and then:"
                cat "$area/first" "$area/second" "$area/said"
                return 1
            }
        done
        [ "$status" -eq 0 ] || { cat "$area/said"; echo "status $status at call $at ($how)"; return 1; }
        kills=$((kills + at - 1))
    done
    echo "$kills kills"
    [ "$kills" -ge $((15 * $#)) ] || { echo "there are more calls than that: the killer is not loaded"; return 1; }
}
# A call that fails ends the service, or there was no need of it; a text goes only where its mark is in the file.
full_anywhere() { # PROGRAM
    printf '10\n20\n30\n' >"$area/keys"
    at=0
    while [ "$at" -lt 25 ]; do
        at=$((at + 1))
        with_ten "$program" || return 1
        status=0
        killing "$at" full "$1" serve <"$area/keys" >"$area/first" 2>"$area/said" || status=$?
        [ "$status" -ne 1 ] || grep -qF -e "$store: " -e "$store/marks: " "$area/said" || { cat "$area/said"; echo "it does not name the file"; return 1; }
        "$1" serve "$store" <"$area/keys" >"$area/second" 2>>"$area/said" && once "$area/first" "$area/second" || {
            echo "when call $at failed, it printed, and then:"
            cat "$area/first" "$area/second" "$area/said"
            return 1
        }
    done
}
# Over both runs no key gets two texts, and 10, which had its own, none. The second run comes up with the marks of all texts that went,
# and at most one more. Half a line counts as a text that went.
once() { # FIRST SECOND
    awk -v second="$2" '
        /^[0-9]+: t/ { if (FILENAME == second) later++; else went++; if ($1 == "10:" || texts[$1]++) bad = bad " a text too many for " $1 }
        /^up with [0-9]+ marks of 64$/ && FILENAME == second { up = $3 }
        END {
            if (up < 1 + went || up > 2 + went) bad = bad " up with " up + 0 " marks after " 1 + went " texts"
            if (up + later != 3) bad = bad " in the end three keys are not marked"
            if (bad) print bad
            exit bad != ""
        }' "$1" "$2"
}

# Killed while it begins, there are no marks or an empty set, and either way it can be gone on from there: then the command holds.
killed_in_begin() { # PROGRAM CALLS COMMAND...: begin makes more calls than that
    tried=$1 calls=$2
    shift 2
    for how in before after half data names; do
        at=0 status=137
        while [ "$status" -eq 137 ]; do
            at=$((at + 1)) status=0
            rm -rf "$store"
            mkdir -p "$store"
            killing "$at" "$how" "$tried" begin >"$area/said" 2>&1 || status=$?
            "$tried" begin "$store" >>"$area/said" 2>&1 || grep -q 'there are marks already' "$area/said" || { cat "$area/said"; return 1; }
            "$@" "$tried" || { echo "killed at call $at ($how) of begin"; return 1; }
        done
        [ "$status" -eq 0 ] && [ "$at" -gt "$calls" ] || { cat "$area/said"; echo "status $status at call $at ($how)"; return 1; }
    done
}
sends_ten() { # PROGRAM
    [ "$(echo 10 | "$1" serve "$store" | tr '\n' ';')" = 'up with 0 marks of 64;10: text sent;' ]
}

in_order() { # PROGRAM
    with_ten "$program" || return 1
    rm -f "$area/calls"
    echo 20 | KILLER_LOG="$area/calls" LD_PRELOAD="$area/killer.so" "$1" serve "$store" >"$area/first" || return 1
    grep -E '^(write|f[a-z]*sync|rename|ftruncate|unlink) ' "$area/calls" | sed "s,$store,FOLDER,g" >"$area/order"
    diff - "$area/order" <<'END'
write stdout
write FOLDER/marks.new
fsync FOLDER/marks.new
rename FOLDER/marks.new FOLDER/marks
fsync FOLDER
write stdout
END
}

# It ends with status 1 and says what to do; no text goes, and the file is as it was. So does begin, where there is a file.
refuses_bad_files() { # PROGRAM
    with_ten "$program" || return 1
    whole=$(wc -c <"$area/ten")
    cut=0
    while [ "$cut" -lt "$whole" ]; do
        head -c "$cut" "$area/ten" >"$store/marks"
        refuses "$1" "marks ($cut bytes): refused with code 13: these bytes are no saved set: they go wrong at byte $cut," || { echo "with $cut of its bytes"; return 1; }
        cut=$((cut + 1))
    done
    { cat "$area/ten"; printf '\000'; } >"$store/marks"
    refuses "$1" "they go wrong at byte $((whole + 1))," || return 1
    printf '\177\001\002\212\000\000' >"$store/marks" # its key, 10, is not in shortest form, and a byte is left over
    refuses "$1" 'they go wrong at byte 4,' || return 1
    printf '\011\000' >"$store/marks" # an empty set of 9 slots
    refuses "$1" 'refused with code 14: ' || return 1
    rm "$store/marks"
    refuses "$1" 'No such file' || return 1
    mkdir "$store/marks"
    refuses "$1" 'Is a directory' || return 1
}
refuses() { # PROGRAM WORDS
    rm -rf "$area/before"
    cp -R "$store" "$area/before"
    status=0
    echo 20 | "$1" serve "$store" >"$area/first" 2>"$area/said" || status=$?
    cat "$area/first" "$area/said"
    [ ! -s "$area/first" ] || { echo "it comes up"; return 1; }
    [ "$status" -eq 1 ] && grep -qF "$2" "$area/said" && grep -q "^No text goes out\..*call the desk" "$area/said" &&
        diff -r "$area/before" "$store" || { echo "it is refused otherwise than by '$2'"; return 1; }
    [ ! -e "$store/marks" ] || { ! "$1" begin "$store" >"$area/first" 2>&1 && diff -r "$area/before" "$store"; } || { echo "it begins over what is there"; return 1; }
}

# While one waits for its next key, another cannot begin nor serve; when it is killed, another comes up at once.
keeps_out_a_second() { # PROGRAM
    with_ten "$program" || return 1
    rm -f "$area/pipe"
    mkfifo "$area/pipe"
    "$1" serve "$store" <"$area/pipe" >"$area/first" 2>&1 &
    service=$!
    exec 7>"$area/pipe"
    kept=1
    wait_for 'up with 1 marks' "$area/first" || kept=0
    for word in serve begin; do
        ! echo 20 | "$1" "$word" "$store" >"$area/second" 2>"$area/said" && [ ! -s "$area/second" ] && grep -q 'another service has this folder' "$area/said" || { cat "$area/second" "$area/said"; echo "a second one is not kept out: $word"; kept=0; }
    done
    kill -9 "$service"
    exec 7>&-
    wait "$service" 2>/dev/null || :
    [ "$kept" -eq 1 ] && echo 20 | "$1" serve "$store" | grep -q '^20: text sent$'
}
wait_for() { # WORDS FILE
    for turn in 1 2 3 4 5 6 7 8 9 10; do
        ! grep -q "$1" "$2" || return 0
        sleep 0.2 2>/dev/null || sleep 1
    done
    echo "it does not say: $1"
    return 1
}
