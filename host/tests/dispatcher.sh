# Sourced by host/test, after restart.sh: the example dispatcher. What it prints; and that over all its lives nobody gets more texts about
# a notice than its limit, and no attempt goes twice, wherever it was killed or the power was cut or a call failed. Then faults are planted
# in copies of it, and each is seen, for what it is.

dispatchers() {
    service_built dispatcher || return 0
    for how in before after half; do
        one "dispatcher killed at every step ($how) keeps every limit" "$log" within_limits "$program" "$how"
    done
    for how in data names; do
        one "dispatcher keeps every limit after a power cut at every step ($how)" "$log" within_limits "$program" "$how"
    done
    one "dispatcher keeps every limit where a call or a text fails, and the next attempt goes" "$log" within_limits "$program" full
    one "dispatcher killed anywhere while it begins" "$log" killed_in_begin "$program" 12 sends_all
    planted "the marks are begun before the book" "notices: No such file" '/^    if !store.path(Book::FILE)/,/^    }/d; s/^    store.begin()$/    store.begin()?;\n    Book::default().save(store)/' killed_in_begin 12 sends_all
    planted "a full set sends" "a text too many for 2/4;" 's,MaySend::NoRoom =>.*,MaySend::NoRoom => println!("  text {notice}/{resident}/1: no room"),' within_limits before
    planted "a notice is cleared to make room" "attempt 1 of 2/1 is used twice;" 's/asked.no_room += 1,/asked.no_room += self.pool.clear_notice(notice)? as usize,/' within_limits before
    planted "the texts go before the save" "a text too many for 1/1;" '/self.store.save(&self.pool).map_err/d; s/^        self.settle()$/        self.store.save(\&self.pool)?;\n&/' within_limits before
    planted "a restart forgets the marks" "a text too many for 1/1;" 's/(store.load()?, /(Pool::prepare(vec![0; Pool::words_for(SLOTS)])?, /' within_limits before
    planted "the book is saved after the clearing" "a text too many for 1/5;" 's/Ok(()) => self.book.save(self.store),/Ok(()) => Ok(()),/; s/self.clear()?;/& self.book.save(self.store)?;/' within_limits before
    planted "a notice that is over stands again" "a text too many for 1/5;" 's/if self.over.contains(&notice)/if false \&\& self.over.contains(\&notice)/' within_limits before
    planted "the limit is one too high" "attempt 2 of 1/1 is above the limit;" 's/may_send(text, \*limit)/may_send(text, *limit + 1)/' within_limits before
    planted "a failed text's mark is withdrawn" "attempt 1 of 1/1 is used twice;" 's/let (notice, resident, attempt) = /let key = permit.key(); &/; s/^ *println!("  no text /let _ = self.pool.delete(key); &/' within_limits full
    planted "the marks are not flushed" "marks (0 bytes): refused with code 13" '/file.sync_all()?;/d' within_limits data
}

# In this script a notice's number is its limit. The set has 8 marks: at 5:05 it is full, at 5:07 there is room again.
polls() {
    printf '%s\n' '5:04 notice 1 residents 1 to 5 limit 1' '5:05 notice 2 residents 1 to 5 limit 2' 5:06 '5:07 over 1' 5:08 \
        '5:09 over 2' '5:10 notice 3 residents 8190 to 8191 limit 3' 5:11
}

# From an empty set, for each of its calls on files and each text: two lives that end there, if they come so far, and a third one to its
# end. Each is given all the polls. (With the word full a life goes on after the failed call, if that was a text.)
within_limits() { # PROGRAM HOW
    tried=$1
    polls >"$area/polls"
    rm -f "$area/calls" "$area/facts"
    begun || return 1
    KILLER_LOG="$area/calls" LD_PRELOAD="$area/killer.so" "$tried" serve "$store" <"$area/polls" >"$area/said" || { cat "$area/said"; return 1; }
    steps=$(wc -l <"$area/calls")
    [ "$steps" -ge 60 ] || { echo "there are more than $steps calls: the killer is not loaded"; return 1; }
    step=0
    while [ "$step" -lt "$steps" ]; do
        step=$((step + 1))
        begun || return 1
        three_lives "$step" "$2" && no_text_too_many "$area/lives" >>"$area/facts" || {
            echo "where two lives end at call $step ($2), the three print:"
            cat "$area/lives" "$area/errors"
            tail -n 1 "$area/facts"
            return 1
        }
    done
    # what the test is for has been met
    for fact in 'limit of notice 1 reached' 'limit of notice 2 reached' 'limit of notice 3 reached' 'an attempt failed, the next went'; do
        [ "$2" = full ] || [ "$fact" != 'an attempt failed, the next went' ] || continue
        grep -qx "$fact" "$area/facts" || { echo "never met: $fact"; return 1; }
    done
}
begun() {
    [ -d "$area/begun" ] || { mkdir "$area/begun" && "$program" begin "$area/begun"; } || return 1
    rm -rf "$store"
    cp -R "$area/begun" "$store"
}
three_lives() { # AT HOW
    at=$1 how=$2
    : >"$area/lives"
    : >"$area/errors"
    for life in 1 2 3; do
        status=0
        [ "$life" -lt 3 ] || at=0 # at no call
        killing "$at" "$how" "$tried" serve <"$area/polls" >"$area/said" 2>>"$area/errors" || status=$?
        [ "$how" = full ] || [ "$life" -gt 1 ] || [ "$status" -eq 137 ] || { echo "it is not killed: status $status"; return 1; }
        { cat "$area/said"; echo; echo "(status $status)"; } >>"$area/lives"
    done
    [ "$status" -eq 0 ] # the last life comes to its end
}
# Half a line counts as a text that went. Prints what was met, or what is wrong.
no_text_too_many() { # LIVES
    awk '
        /^  (no )?text [0-9]+\/[0-9]+\/[0-9]+/ {
            failed = $1 == "no"
            split(failed ? $3 : $2, of, "[/:]")
            notice = of[1]; text = of[1] "/" of[2]; attempt = of[3]
            if (used[text, attempt]++) bad = bad " attempt " attempt " of " text " is used twice;"
            if (attempt > notice) bad = bad " attempt " attempt " of " text " is above the limit;"
            if (failed) { fails[text, attempt] = 1; next }
            if (++texts[text] > notice) bad = bad " a text too many for " text ";"
            if (texts[text] == notice) print "limit of notice " notice " reached"
            if (fails[text, attempt - 1]) print "an attempt failed, the next went"
        }
        END {
            if (bad) print bad
            exit bad != ""
        }' "$1"
}

sends_all() { # PROGRAM: from an empty set and its book
    [ "$(polls | "$1" serve "$store" | grep -c '^  text ')" -eq 12 ]
}

# The accident of 5:04, and what comes after it: what is printed is what is known to be printed.
dispatcher_prints() { # COMMAND...
    service_named dispatcher
    rm -rf "$store"
    mkdir -p "$store"
    {
        echo 5:03 | service_run "$@" serve
        service_run "$@" begin </dev/null
        # the set is full at 5:05, and the loop asks on
        printf '%s\n' '5:04 notice 1 residents 1 to 5 limit 1' '5:05 notice 2 residents 1 to 5 limit 2' 5:06 5:07 | service_run "$@" serve
        # it is restarted in the middle, and has forgotten who was told; then the desk makes room
        printf '%s\n' 5:08 5:09 '5:10 over 1' 5:11 '5:12 over 2' | service_run "$@" serve
        # failed texts use up their attempts
        printf '%s\n' '5:13 gateway down' '5:14 notice 3 residents 8190 to 8191 limit 3' '5:15 notice 4 residents 0 to 0 limit 1' \
            '5:16 gateway up' | service_run "$@" serve
        # slips of the desk
        printf '%s\n' '5:17 notice 1 residents 1 to 5 limit 1' '5:18 notice 5 residents 8191 to 8192 limit 1' '5:19 over 65536' \
            '5:20 notice six' | service_run "$@" serve
    } >"$target/dispatcher.out" 2>&1
    diff "$root/host/examples/dispatcher.expected" "$target/dispatcher.out"
}
