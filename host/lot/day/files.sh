# Trouble with files: missing, empty, cut off, unreadable, read-only, a folder in a file's place; too long; standard
# input and output. After each complaint every file is as it was, and nothing is left beside them.

day_files() {
    lay_out
    missing_files
    folders
    empty_files
    cut_files
    endless_files
    unreadable_files
    read_only_files
    outputs
    output_is_input
    standard_input
    standard_output
    say "8 kinds of file in every kind of trouble$([ ${#stranger[@]} -eq 0 ] || echo ', rights as another user than root')"
}

# One good file of each kind, and each command with them. A word of a command that is @KIND is the file of that kind;
# the tables below put a file in trouble there.
lay_out() {
    mkdir good
    cp "$rules/store.12" good/store
    printf '%065d' 0 | tr '0' '\377' >>good/store
    # a copy of it in another room, with other bytes there
    { cat "$rules/store.12"; printf '%064d\377%064d\377' 1 2; } >good/copy
    cp "$rules/held.8" good/held8
    cp "$rules/held.12" good/held
    cp "$rules/growth.8.12" good/growth
    cp "$rules/proof.5.12" good/proof
    cp "$rules/entry.5" good/entry
    head -n 1 "$rules/lots.txt" >good/lines
    cp "$rules/keys.txt" good/list
    cp "$rules/trie.0" good/present
    cp "$rules/trie.9" good/absent
    cp "$rules/key.1" good/key
    cp "$rules/key.0" good/first
    cp "$rules/van.$entries" good/log
    cp "$rules/van.1" good/open
    cp "$rules/data.1" good/data
    readers=(
        'count @store' 'digest @store' 'audit @store' 'compare-stores @store @copy' 'prove @store 5 -o out' 'prove-growth @store 5 -o out'
        'show @held' "compare @held 12 ${T[12]}" 'verify @held 5 @entry @proof'
        "verify 5 @entry @proof --at 12 --digest ${T[12]}"
        "dispute 5 12 ${T[12]} @entry @proof @entry @proof -o out out2" "draw 5 12 ${T[12]} @entry @proof"
        'root @list' "absent @list ${others[9]} -o out" "present @list ${listed[0]} -o out"
        "verify-absent $root ${others[9]} @absent" "verify-present $root ${listed[0]} @present"
        'seal-check @log --first-key @first'
    )
    writers=(
        'grow @store --room 64' 'append @store @entry' 'append @store --lines @lines'
        "advance @held8 12 ${T[12]} @growth" 'seal @open --key @key --type 2 @data' 'seal-close @open --key @key @data'
    )
}

# A fresh set of the good files, which belong to whoever is going to run the program.
fresh() {
    rm -rf set
    cp -r good set
    [ ${#stranger[@]} -eq 0 ] || chown -R 65534:65534 set
    cd set
}

# Calls a function with each kind of file that each command names: FUNCTION KIND WORD.., the words as they stand.
each_file() { # FUNCTION COMMAND..
    local line kind
    for line in "${@:2}"; do
        for kind in $(grep -o '@[a-z0-9]*' <<<"$line" | sort -u); do
            fresh
            # shellcheck disable=SC2086  # the line is made of words
            "$1" "${kind#@}" ${line//@/}
            cd ..
        done
    done
}

missing_files() {
    local line
    # first every command with every file as it should be: the tables themselves are in order
    for line in "${readers[@]}" "${writers[@]}"; do
        fresh
        # shellcheck disable=SC2086
        capture ${line//@/}
        [ "$status" = 0 ] || fail 'status 0 with every file as it should be'
        cd ..
    done
    each_file missing "${readers[@]}" "${writers[@]}"
    fresh
    for line in 'init none/store --log 7 --room 16' 'hold none/held --log 7' 'seal none/log --key key --type 2 data'; do
        # shellcheck disable=SC2086
        still complains_like 2 "lot ${line%% *}: none/*: No such file or directory" $line
    done
    cd ..
}

# A van's log that is not there is made: that is no trouble.
missing() { # KIND WORD..
    rm "$1"
    [ "$1" != open ] || return 0
    still unread "$1" 'No such file or directory' "${@:2}"
}

folders() {
    each_file folder "${readers[@]}" "${writers[@]}"
    fresh
    mkdir folder
    still complains 2 'lot init: folder: a file is there already' init folder --log 7 --room 16
    still complains_like 2 'lot hold: folder: *' hold folder --log 7
    cd ..
}

folder() { # KIND WORD..
    rm "$1"
    mkdir "$1"
    still unread "$1" 'Is a directory' "${@:2}"
}

# --- contents --------------------------------------------------------------------------------------------------

# What a file of no bytes is: a damaged store, no held file, another proof, another entry, a list or log of nothing.
empty_files() {
    each_file empty "${readers[@]}" "${writers[@]}"
}

empty() { # KIND WORD..
    : >"$1"
    case $1 in
    store | copy) still damaged_store "$@" ;;
    held | held8) still refuses 3 18 '' "${@:2}" ;;
    growth) still refuses 1 7 '' "${@:2}" ;;
    proof | entry) empty_of_proof "$@" ;;
    present) still refuses 1 16 '' "${@:2}" ;;
    absent) still refuses 1 17 '' "${@:2}" ;;
    key) still refuses 3 6 '' "${@:2}" ;;
    first) still complains_like 2 'lot seal-check: first: *' "${@:2}" ;;
    log) still refuses 1 25 '' "${@:2}" ;;
    lines) still expect 0 '' "${@:2}" ;;
    *) empty_is_good "$@" ;;
    esac
}

# The damage of a store, which compare-stores tells by the store's name.
damaged_store() { # KIND WORD..
    case $2 in
    compare-stores) compares 3 'refused 1' "refused 1: ${meaning[1]}: $1" "${@:2}" ;;
    *) refuses 3 1 '' "${@:2}" ;;
    esac
}

# An empty entry is one, and not that of this proof; an empty proof has not the path's length.
empty_of_proof() { # KIND WORD..
    local number=7
    [ "$1" = proof ] || number=8
    case $2 in
    append) empty_is_good "$@" ;;
    verify) still refuses 1 "$number" '' "${@:2}" ;;
    dispute) still refuses 1 13 ', proof 1' "${@:2}" ;;
    draw) still draws "$number" "${@:2}" ;;
    esac
}

# The picture has more lines than the verdict.
draws() { # NUMBER WORD..
    capture "${@:2}"
    [[ $status == 1 && $answer == 'element 5 of 12: '*$'\n'"refused $1: ${meaning[$1]}"$'\n' ]] || fail "refused $1 as the last line"
}

empty_is_good() { # KIND WORD..
    case $2 in
    root) still expect 0 "$empty_root" "${@:2}" ;;
    absent) expect 0 "absent $4, 0 bytes" "${@:2}" ;;
    present) still refuses 1 15 ", $4 is not in the list" "${@:2}" ;;
    append) expect 0 "13 $(python "$day/next.py" "$rules/lots.txt" "$1") $1" "${@:2}" ;;
    seal) capture "${@:2}"; [ "$status" = 0 ] || fail 'status 0' ;;
    seal-close) capture "${@:2}"; [ "$status" = 0 ] || fail 'status 0' ;;
    esac
}

cut_files() {
    each_file cut_short "${readers[@]}" "${writers[@]}"
}

# The last byte is missing. A store's last record is open: the room is one less, and that is no damage; a list's last
# key has no line feed, and that is none either.
cut_short() { # KIND WORD..
    truncate -s -1 "$1"
    case $1 in
    store | copy) cut_store "$@" ;;
    held | held8) still refuses 3 22 '' "${@:2}" ;;
    growth) still refuses 1 7 '' "${@:2}" ;;
    proof | entry) [ "$2" = append ] || empty_of_proof "$@" ;;
    absent | present) still refuses 1 16 '' "${@:2}" ;;
    key) still refuses 3 6 '' "${@:2}" ;;
    first) still complains_like 2 'lot seal-check: first: *' "${@:2}" ;;
    log) still refuses 1 24 " at entry $((entries - 1))" "${@:2}" ;;
    esac
}

# There is no room any more for an append, and two stores are compared without their room.
cut_store() { # KIND WORD..
    case $2 in
    append) still refuses 3 5 ", $([ "$4" = --lines ] && echo lines:1 || echo entry)" "${@:2}" ;;
    compare-stores) still expect 0 equal "${@:2}" ;;
    esac
}

# A file without end is read no further than shows that it is too long.
endless_files() {
    fresh
    local -a before=(timeout 20)
    still refuses 2 3 ', /dev/zero' append store /dev/zero
    still refuses 2 3 ', /dev/zero:1' append store --lines /dev/zero
    refuses 1 3 '' verify held 5 /dev/zero proof
    refuses 1 7 '' verify held 5 entry /dev/zero
    refuses 1 7 '' advance held8 12 "${T[12]}" /dev/zero
    refuses 3 19 '' show /dev/zero
    refuses 1 16 '' verify-absent "$root" A /dev/zero
    refuses 1 16 '' verify-present "$root" A /dev/zero
    still refuses 2 3 '' seal open --key key --type 2 /dev/zero
    still complains_like 2 'lot seal-check: /dev/zero: *' seal-check log --first-key /dev/zero
    capture root /dev/zero
    [[ $status == 2 && $answer == "refused 3: ${meaning[3]}"* ]] || fail "refused 3: ${meaning[3]}"
    cd ..
}

# --- rights ----------------------------------------------------------------------------------------------------

unreadable_files() {
    each_file unreadable "${readers[@]}" "${writers[@]}"
}

unreadable() { # KIND WORD..
    chmod 000 "$1"
    as_stranger still unread "$1" 'Permission denied' "${@:2}"
}

read_only_files() {
    each_file read_only "${readers[@]}" "${writers[@]}"
    each_file in_read_only_folder "${writers[@]}"
    fresh
    chmod 555 .
    as_stranger still complains 2 'lot init: new: Permission denied' init new --log 7 --room 16
    as_stranger still complains 2 'lot hold: new: Permission denied' hold new --log 7
    as_stranger still complains 2 'lot prove: out: Permission denied' prove store 5 -o out
    as_stranger still complains 2 'lot seal: new: Permission denied' seal new --key key --type 2 data
    chmod 755 .
    cd ..
}

# What is only read may be read-only. A store, a van's log and a key are written in their place, and can't be then; a
# held file is replaced, but whoever took away the right to write it did not mean that.
read_only() { # KIND WORD..
    chmod 444 "$1"
    case $1.$2 in
    store.append | store.grow | open.* | key.* | held8.*)
        as_stranger still complains 2 "lot $2: $1: Permission denied" "${@:2}"
        ;;
    *) as_stranger capture "${@:2}"; [ "$status" = 0 ] || fail 'status 0: this file is only read' ;;
    esac
}

# Where nothing can be made beside a file, what is replaced stays, and what is written in its place goes on.
in_read_only_folder() { # KIND WORD..
    [[ $1 == store || $1 == held8 || $1 == open ]] || return 0
    chmod 555 .
    case $2 in
    advance) as_stranger still complains_like 2 'lot advance: held8*: Permission denied' "${@:2}" ;;
    append) as_stranger capture "${@:2}"
        [[ $status == 0 || $status == 3 ]] || fail 'an append to need nothing beside the store' ;;
    esac
    chmod 755 .
}

# --- outputs ---------------------------------------------------------------------------------------------------

outputs() {
    local line
    local -a made=('prove store 5' 'prove-growth store 5' "absent list ${others[9]}" "present list ${listed[0]}")
    for line in "${made[@]}"; do
        fresh
        # shellcheck disable=SC2086
        output_of $line
        cd ..
    done
}

output_of() { # WORD..
    capture "$@" -o out
    [ "$status" = 0 ] || fail 'status 0'
    cp out wanted
    line=${answer%$'\n'}
    # what was there is replaced
    head -c 10000 /dev/zero >out
    expect 0 "$line" "$@" -o out
    same out wanted
    read_only_output "$@"
    mkdir folder
    still complains 2 "lot $1: folder: Is a directory" "$@" -o folder
    still complains 2 "lot $1: none/out: No such file or directory" "$@" -o none/out
    still complains_like 2 "lot $1: wanted/out: Not a directory" "$@" -o wanted/out
    expect_bytes wanted "$line" "$@" -o -
    chmod 555 folder
    as_stranger still complains 2 "lot $1: folder/out: Permission denied" "$@" -o folder/out
    chmod 755 folder
    rmdir folder || fail 'an empty folder'
    still misused "$@"
}

# A file that may not be written is not replaced either.
read_only_output() { # WORD..
    echo something else >out
    chmod 444 out
    as_stranger still complains 2 "lot $1: out: Permission denied" "$@" -o out
    rm -f out
}

# An output never takes the place of the file that it is made from, by whatever name.
output_is_input() {
    local name
    fresh
    ln store hard-store
    ln -s store soft-store
    ln list hard-list
    ln -s list soft-list
    for name in store ./store hard-store soft-store ../set/store; do
        still rejects prove store 5 -o "$name"
        still rejects prove-growth store 5 -o "$name"
    done
    for name in list ./list hard-list soft-list; do
        still rejects absent list "${others[9]}" -o "$name"
        still rejects present list "${listed[0]}" -o "$name"
    done
    for name in entry proof; do
        still rejects dispute 5 12 "${T[12]}" entry proof entry proof -o "$name" B
        still rejects dispute 5 12 "${T[12]}" entry proof entry proof -o A "$name"
    done
    gone A B
    cd ..
}

# --- standard input and output ---------------------------------------------------------------------------------

# Each word that names a file to read may be `-`; here each in turn, with the answer that the file itself gives.
standard_input() {
    local refused=('init - --log 7 --room 16' 'grow - --room 64' 'append - entry' 'hold - --log 7' "advance - 12 ${T[12]} growth"
        'seal - --key key --type 2 data' 'seal open --key - --type 2 data' 'seal-close - --key key' 'seal-close open --key -'
        'verify - 5 - proof' 'verify held 5 - -' 'append store - -' "draw 5 12 ${T[12]} - -" 'seal-check - --first-key -'
        "dispute 5 12 ${T[12]} - proof - proof -o A B" 'compare-stores - -')
    local line
    each_file through_input "${readers[@]}" "${writers[@]}"
    fresh
    for line in "${refused[@]}"; do
        # shellcheck disable=SC2086
        still rejects $line
    done
    gone -- -
    cd ..
}

through_input() { # KIND WORD..
    local at given=("${@:2}") owed names=0
    for at in "${!given[@]}"; do
        [ "$at" -eq 0 ] || [ "${given[at]}" != "$1" ] || { given[at]=-; names=$((names + 1)); }
    done
    # written in its place, or named twice: refused elsewhere
    case $1 in store) [[ $2 != append && $2 != grow ]] || return 0 ;; held8 | open | key) return 0 ;; esac
    [ "$names" -eq 1 ] || return 0
    capture "${@:2}"
    [ "$status" = 0 ] || fail 'status 0'
    owed=$answer
    # the same set again: a command that writes has changed it
    cd .. && fresh
    [ "$2" != append ] || owed=${owed//" $1"/ -}
    input=$1 capture "${given[@]}"
    [[ $status == 0 && $answer == "$owed" && -z $aside ]] || fail "$owed"
}

# An answer that can't be written is a complaint; a lot that was appended stays in the log all the same.
standard_output() {
    local line
    fresh
    for line in "${readers[@]//@/}"; do
        # shellcheck disable=SC2086
        not_written $line
    done
    cd ..
    fresh
    not_written append store entry
    expect 0 13 count store
    expect 0 'sound 13' audit store
    rm -f new
    not_written hold new --log 7
    same new "$rules/held.0"
    not_written advance held8 12 "${T[12]}" growth
    same held8 "$rules/held.12"
    not_written seal open --key key --type "${kinds[2]}" "$rules/data.2"
    same open "$rules/van.2"
    same key "$rules/key.2"
    cd ..
    closed_pipe
}

not_written() { # WORD..
    words=("$@") answer='' status=0
    lot "$@" <"$input" >/dev/full 2>"$work/err" || status=$?
    aside=$(<"$work/err")
    [[ $status == 2 && $aside == "lot $1: "*'standard output'*'No space left on device' ]] ||
        fail "status 2, 'lot $1: standard output: No space left on device' on standard error"
    tally
}

# Who reads the answers goes away: what was answered is in the log, and nothing but a complaint comes.
closed_pipe() {
    fresh
    capture init many.lot --log 7 --room 4000
    # more answers than a pipe holds
    seq 4000 >many
    words=(append many.lot --lines many) answer='' status=0
    echo 0 >"$work/status"
    { lot append many.lot --lines many 2>"$work/err" || echo $? >"$work/status"; } | head -n 1 >first-line
    status=$(<"$work/status") aside=$(<"$work/err")
    [[ $status == 2 && $aside == 'lot append: '*'standard output'*'Broken pipe' ]] || fail 'status 2, and standard output: Broken pipe'
    capture count many.lot
    answer=${answer%$'\n'}
    [ "$answer" -ge 1 ] || fail 'at least the lot that was answered'
    store_is many.lot "$answer" 4000 many
    cd ..
}
