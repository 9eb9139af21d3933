# A full disk: by a limit on the length of files, and on a small file system where one can be mounted.

day_full() {
    limit_files
    small_file_system
    say "a limit on the length of files; $tried"
}

# Good files for each command that writes, in this folder.
full_set() {
    cp "$rules/van.2" log
    cp "$rules/key.2" key
    cp "$rules/held.8" held
    cp "$rules/proof.1.12" proof
    expect 0 'log 7, room 16' init store.lot --log 7 --room 16
    capture append store.lot --lines "$rules/lots.txt"
    [ "$status" = 0 ] || fail 'status 0'
}

# A limit below what the file would need: a complaint, and all is as it was.
limit_files() {
    local large='File too large'
    mkdir limited
    cd limited
    full_set
    limited 4100 still complains_like 2 "lot init: new.lot*: $large" init new.lot --log 7 --room 64
    limited 4100 still complains_like 2 "lot grow: store.lot*: $large" grow store.lot --room 64
    limited 4100 still complains_like 2 "lot present: new*: $large" present "$rules/keys.txt" "${listed[0]}" -o new
    limited 4100 no_room_to_seal "$large"
    # the emulator has a file of its own, of some thousand bytes, for which the limit holds too
    [ ${#emulator[@]} -gt 0 ] || low_limits "$large"
    expect 0 "13 ${T[13]} $rules/entry.1" append store.lot "$rules/entry.1"
    after_full
    cd ..
}

low_limits() { # TEXT
    limited 100 still complains_like 2 "lot prove: new*: $1" prove store.lot 5 -o new
    limited 100 still complains_like 2 "lot prove: proof*: $1" prove store.lot 5 -o proof
    limited 100 still complains_like 2 "lot prove-growth: new*: $1" prove-growth store.lot 5 -o new
    limited 40 still complains_like 2 "lot hold: new*: $1" hold new --log 7
    limited 100 still complains_like 2 "lot advance: held*: $1" advance held 12 "${T[12]}" "$rules/growth.8.12"
    limited 20 still complains_like 2 "lot absent: new*: $1" absent "$rules/keys.txt" "${others[9]}" -o new
    # an append needs no more room than the store has already
    cp store.lot copy.lot
    limited 1056 expect 0 "13 ${T[13]} $rules/entry.1" append copy.lot "$rules/entry.1"
    rm copy.lot
}

# The log has what it had and no part of an entry behind it, the key has not moved, and no new log is left.
no_room_to_seal() { # TEXT
    still complains_like 2 "lot seal: log*: $1" seal log --key key --type "${kinds[3]}" "$rules/data.3"
    still complains_like 2 "lot seal-close: log*: $1" seal-close log --key key "$rules/data.3"
    still complains_like 2 "lot seal: new*: $1" seal new --key key --type "${kinds[3]}" "$rules/data.3"
}

# With room again, everything goes on.
after_full() {
    expect 0 'sound 13' audit store.lot
    store_is store.lot 13 16 <(cat "$rules/lots.txt" "$rules/lots.txt")
    expect 0 'log 7, room 64, count 13' grow store.lot --room 64
    store_is store.lot 13 64 <(cat "$rules/lots.txt" "$rules/lots.txt")
    expect 0 'accepted: 8 to 12, after 1 hop' advance held 12 "${T[12]}" "$rules/growth.8.12"
    same held "$rules/held.12"
    expect 0 "entry 2, type ${kinds[3]}, 4096 bytes of data" seal log --key key --type "${kinds[3]}" "$rules/data.3"
    same log "$rules/van.3"
    same key "$rules/key.3"
    expect 0 'element 5 of 12, 448 bytes' prove store.lot 5 --at 12 -o proof
    same proof "$rules/proof.5.12"
}

# A file system of 64 kB in a room of its own, if this machine allows one; disk.sh makes the checks there.
small_file_system() {
    local way
    tried='no small file system could be mounted here'
    for way in -m -rm; do
        unshare "$way" mount -t tmpfs -o size=64k lot "$PWD" 2>/dev/null || continue
        tried='a file system of 64 kB'
        export work day lot top python3 part
        # what failed there has been said there
        unshare "$way" bash "$day/disk.sh" "$PWD" || exit 1
        return 0
    done
}
