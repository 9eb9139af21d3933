# The van: entries are sealed, the log is closed and checked; keys move on and are gone at the end.

day_van() {
    cp "$rules"/{data,key,van}.* .
    seal_all
    refuse_more
    refuse_seals
    cut_off_between
    torn_entries
    broken_logs
    say "$entries entries sealed, $(wc -l <"$rules/vans.list") logs checked"
}

# Log and key after each entry; the log is made by the first.
seal_all() {
    local at
    cp key.0 key
    for ((at = 1; at < entries; at++)); do
        expect 0 "entry $((at - 1)), type ${kinds[at]}, $(stat -c %s "data.$at") bytes of data" seal log --key key --type "${kinds[at]}" "data.$at"
        same log "van.$at"
        same key "key.$at"
        refuses 1 25 '' seal-check log --first-key key.0
    done
    expect 0 "entry $((at - 1)), closed" seal-close log --key key "data.$at"
    same log "van.$at"
    same key "key.$at"
    expect 0 "accepted: $entries entries, closed" seal-check log --first-key key.0
    refuses 1 24 ' at entry 0' seal-check log --first-key key.1
    close_at_once
}

# A closing entry without data, and as the only one.
close_at_once() {
    cp key.0 key2
    expect 0 'entry 0, closed' seal-close log2 --key key2
    cmp -s key2 <(head -c 32 /dev/zero) || fail 'a key of zeros'
    expect 0 'accepted: 1 entry, closed' seal-check log2 --first-key key.0
    [ "$(stat -c %s log2)" = 38 ] || fail 'a log of 38 bytes'
}

# A closed log takes nothing more, whatever key is given.
refuse_more() {
    still refuses 3 23 '' seal log --key key --type 2 data.1
    still refuses 3 23 '' seal-close log --key key
    cp key.3 key3
    still refuses 3 23 '' seal log --key key3 --type 2 data.1
    still refuses 3 23 '' seal-close log --key key3
    { cat log; printf torn; } >log3
    still refuses 3 24 " at entry $entries" seal log3 --key key3 --type 2 data.1
    rm key3 log3
}

refuse_seals() {
    local size kind
    for size in 0 1 31 33 64; do
        head -c "$size" /dev/urandom >bad.key
        still refuses 3 6 '' seal new.log --key bad.key --type 2 data.1
        still refuses 3 6 '' seal-close new.log --key bad.key
        still complains_like 2 'lot seal-check: bad.key: *' seal-check log --first-key bad.key
    done
    rm bad.key
    cp key.0 key4
    head -c 4097 /dev/zero >long
    still refuses 2 3 '' seal new.log --key key4 --type 2 long
    still refuses 2 3 '' seal-close new.log --key key4 long
    for kind in 1 4294967296 18446744073709551615 -1 '' two; do
        still rejects seal new.log --key key4 --type "$kind" data.1
    done
    # a log that can't be read as one: an entry that says it has more data than any may have
    printf '\0\0\0\2\377\377door opened' >wrong.log
    head -c 70000 /dev/zero >>wrong.log
    still refuses 3 24 ' at entry 0' seal wrong.log --key key4 --type 2 data.1
    still refuses 3 24 ' at entry 0' seal-close wrong.log --key key4
    { cat van.2; cat wrong.log; } >wrong2.log
    still refuses 3 24 ' at entry 2' seal wrong2.log --key key4 --type 2 data.1
    still refuses 1 24 ' at entry 2' seal-check wrong2.log --first-key key.0
    rm long wrong.log wrong2.log key4
}

# The log was written and the key did not move: the next seal finishes it, and no key is used twice.
cut_off_between() {
    local at
    for ((at = 1; at < entries - 1; at++)); do
        cp "van.$at" cut
        cp "key.$((at - 1))" cut.key
        expect 0 "entry $at, type ${kinds[at + 1]}, $(stat -c %s "data.$((at + 1))") bytes of data" \
            seal cut --key cut.key --type "${kinds[at + 1]}" "data.$((at + 1))"
        same cut "van.$((at + 1))"
        same cut.key "key.$((at + 1))"
    done
    cp "van.$((entries - 1))" cut
    cp "key.$((entries - 2))" cut.key
    expect 0 "entry $((entries - 1)), closed" seal-close cut --key cut.key "data.$entries"
    same cut "van.$entries"
    same cut.key "key.$entries"
    # closing itself was cut off: the log is closed, and the key must not outlive it
    cp "key.$((entries - 1))" cut.key
    refuses 3 23 '' seal-close cut --key cut.key "data.$entries"
    same cut "van.$entries"
    same cut.key "key.$entries"
    rm cut cut.key
}

# A log is replaced whole, so one that ends in the middle of an entry, or has a length that leads past its end, was not
# left so by a seal that was cut off: it is refused, and nothing of it is lost.
torn_entries() {
    local size whole
    whole=$(stat -c %s van.1)
    cp key.1 torn.key
    for ((size = 1; size < whole; size++)); do
        head -c "$size" van.1 >torn
        still refuses 3 24 ' at entry 0' seal torn --key torn.key --type 2 data.1
    done
    for ((size = 1; size < 38; size++)); do
        head -c $((whole + size)) van.2 >torn
        still refuses 3 24 ' at entry 1' seal-close torn --key torn.key
    done
    cp van.2 torn
    printf '\017\377' | dd of=torn bs=1 seek=4 conv=notrunc status=none
    still refuses 3 24 ' at entry 0' seal torn --key torn.key --type 2 data.1
    rm torn torn.key
    left_beside
}

# What a seal that was ended has left beside the log is overwritten by the next.
left_beside() {
    cp van.1 torn
    cp key.1 torn.key
    printf 'what an earlier seal left' >torn.saving
    expect 0 "entry 1, type ${kinds[2]}, 0 bytes of data" seal torn --key torn.key --type "${kinds[2]}" data.2
    same torn van.2
    same torn.key key.2
    gone torn.saving
    rm torn torn.key
}

# Every byte turned and every length, and a log that goes on after its closing entry.
broken_logs() {
    local log line
    while IFS=$'\t' read -r log line; do
        expect_verdict "$line" seal-check "$rules/$log" --first-key key.0
    done <"$rules/vans.list"
    cat "van.$entries" van.1 >goes-on
    refuses 1 24 " at entry $entries" seal-check goes-on --first-key key.0
}
