# The house: a store is made, filled, read, grown and found damaged.

day_house() {
    make_store
    fill_store
    read_store
    prove_all
    other_ways_to_fill
    refuse_entries
    grow_store
    find_damage
    odd_names
    say "a store of $last lots, its proofs of all places and lengths, $(wc -l <"$rules/stores.list") damaged copies"
}

make_store() {
    expect 0 'log 7, room 16' init store.lot --log 7 --room 16
    store_is store.lot 0 16
    still complains 2 'lot init: store.lot: a file is there already' init store.lot --log 7 --room 16
    still complains 2 'lot init: store.lot: a file is there already' init store.lot --log 8 --room 1
    expect 0 0 count store.lot
    expect 0 "0 ${T[0]}" digest store.lot
    expect 0 'sound 0' audit store.lot
    still refuses 2 4 '' prove store.lot 1 -o proof
    expect 0 '0 to 0, 0 bytes' prove-growth store.lot 0 -o growth
    same growth "$rules/growth.0.0"
    rm growth
}

# One lot after the other; the store is looked at after each.
fill_store() {
    local j
    for ((j = 1; j <= last; j++)); do
        expect 0 "$j ${T[j]} $rules/entry.$j" append store.lot "$rules/entry.$j"
        store_is store.lot "$j" 16
        expect 0 "$j" count store.lot
        expect 0 "$j ${T[j]}" digest store.lot
        expect 0 "sound $j" audit store.lot
    done
}

read_store() {
    local n
    for ((n = 0; n <= last; n++)); do expect 0 "$n ${T[n]}" digest store.lot "$n"; done
    for n in 13 16 17 4294967295 4294967296 18446744073709551615; do
        still refuses 2 4 '' digest store.lot "$n"
        still refuses 2 4 '' prove store.lot "$n" -o proof
        still refuses 2 4 '' prove store.lot 1 --at "$n" -o proof
        still refuses 2 4 '' prove-growth store.lot "$n" -o proof
        still refuses 2 4 '' prove-growth store.lot 1 --at "$n" -o proof
    done
    still refuses 2 4 '' prove store.lot 0 -o proof
    still refuses 2 4 '' prove store.lot 9 --at 8 -o proof
    still refuses 2 4 '' prove-growth store.lot 9 --at 8 -o proof
}

# Every proof that this log has, byte for byte.
prove_all() {
    local i n size
    for ((n = 0; n <= last; n++)); do
        for ((i = 0; i <= n; i++)); do
            size=$(stat -c %s "$rules/growth.$i.$n")
            expect 0 "$i to $n, $size bytes" prove-growth store.lot "$i" --at "$n" -o growth
            same growth "$rules/growth.$i.$n"
            [ "$i" -gt 0 ] || continue
            size=$(stat -c %s "$rules/proof.$i.$n")
            expect 0 "element $i of $n, $size bytes" prove store.lot "$i" --at "$n" -o proof
            same proof "$rules/proof.$i.$n"
        done
    done
    expect 0 'element 5 of 12, 448 bytes' prove store.lot 5 -o proof
    same proof "$rules/proof.5.12"
    expect 0 '8 to 12, 128 bytes' prove-growth store.lot 8 -o growth
    same growth "$rules/growth.8.12"
    rm proof growth
}

# The same log from lines, from all files at once, and from both in turn.
other_ways_to_fill() {
    local j lines='' files='' names=()
    for ((j = 1; j <= last; j++)); do
        lines+="$j ${T[j]} lots.txt:$j"$'\n' files+="$j ${T[j]} entry.$j"$'\n' names+=("entry.$j")
    done
    cp "$rules/lots.txt" "$rules"/entry.* .
    expect 0 'log 7, room 12' init lines.lot --log 7 --room 12
    expect 0 "${lines%$'\n'}" append lines.lot --lines lots.txt
    store_is lines.lot 12 12
    expect 0 'log 7, room 16' init files.lot --room=16 --log=7
    expect 0 "${files%$'\n'}" append files.lot "${names[@]}"
    store_is files.lot 12 16
    # a last line without its line feed is an entry like the others
    expect 0 'log 7, room 16' init both.lot --log 7 --room 16
    printf '%s\n%s' "$(sed -n 1p lots.txt)" "$(sed -n 2p lots.txt)" >two.txt
    expect 0 "1 ${T[1]} two.txt:1"$'\n'"2 ${T[2]} two.txt:2" append both.lot --lines two.txt
    printf '\n' >empty-line.txt
    expect 0 "3 ${T[3]} empty-line.txt:1" append both.lot --lines=empty-line.txt
    expect 0 "4 ${T[4]} entry.4" append both.lot entry.4
    : >nothing.txt
    still expect 0 '' append both.lot --lines nothing.txt
    store_is both.lot 4 16
}

# What is too long, what finds no room, and what is not there, leaves the log as it was.
refuse_entries() {
    local long="${meaning[3]}" full="${meaning[5]}"
    head -c 4097 /dev/zero >long
    head -c 4096 /dev/zero >longest
    still refuses 2 3 ', long' append both.lot long
    still refuses 2 3 ', long' append both.lot entry.5 entry.6 long
    still complains 2 'lot append: none: No such file or directory' append both.lot entry.5 none
    still refuses 3 5 ', entry.1' append lines.lot entry.1
    # lines are appended as they are read, so those before the long one stay
    { cat entry.5; echo; cat long; echo; cat entry.6; echo; } >mixed.txt
    expect 2 "5 ${T[5]} mixed.txt:1"$'\n'"refused 3: $long, mixed.txt:2" append both.lot --lines mixed.txt
    store_is both.lot 5 16
    # the room ends in the middle
    expect 0 'log 7, room 2' init small.lot --log 7 --room 2
    expect 3 "1 ${T[1]} entry.1"$'\n'"2 ${T[2]} entry.2"$'\n'"refused 5: $full, entry.3" append small.lot entry.1 entry.2 entry.3
    store_is small.lot 2 2
    expect 0 'log 7, room 2' init other.lot --log 7 --room 2
    expect 3 "1 ${T[1]} lots.txt:1"$'\n'"2 ${T[2]} lots.txt:2"$'\n'"refused 5: $full, lots.txt:3" append other.lot --lines lots.txt
    store_is other.lot 2 2
    # the longest entry is taken
    expect 0 'log 7, room 3, count 2' grow other.lot --room 3
    capture append other.lot longest
    [[ $status == 0 && $answer == '3 '*' longest'$'\n' ]] || fail 'an entry of 4,096 bytes to be taken'
    { head -n 2 lots.txt; cat longest; } >three.txt
    store_is other.lot 3 3 three.txt
}

grow_store() {
    expect 0 'log 7, room 32, count 12' grow store.lot --room 32
    store_is store.lot 12 32
    still expect 0 'log 7, room 32, count 12' grow store.lot --room 32
    still complains_like 2 'lot grow: *' grow store.lot --room 31
    still complains_like 2 'lot grow: *' grow store.lot --room 12
    still complains_like 2 'lot grow: *' grow store.lot --room 0
    gone store.lot.growing
    still expect 0 'log 7, room 12, count 12' grow lines.lot --room 12
    expect 0 'log 7, room 14, count 12' grow lines.lot --room 14
    store_is lines.lot 12 14
    cat lots.txt lots.txt >twice.txt
    expect 0 "13 ${T[13]} entry.1"$'\n'"14 ${T[14]} entry.2" append lines.lot entry.1 entry.2
    store_is lines.lot 14 14 twice.txt
    expect 0 'sound 14' audit lines.lot
    still refuses 3 5 ', entry.3' append lines.lot entry.3
    still complains_like 2 'lot init: *' init huge.lot --log 7 --room 18446744073709551615
    gone huge.lot
}

# Each damaged copy, by the audit; a damaged one is refused by every command that reads it.
find_damage() {
    local store line
    while IFS=$'\t' read -r store line; do
        case $line in
        wrong*) expect_with 1 "$line" "lot audit: refused 12: ${meaning[12]} at element ${line#wrong }" audit "$rules/$store" ;;
        *) expect_verdict "$line" audit "$rules/$store" ;;
        esac
    done <"$rules/stores.list"
    while IFS=$'\t' read -r store line; do
        [[ $line == refused* ]] || continue
        cp "$rules/$store" damaged.lot
        still expect 3 "$line" count damaged.lot
        expect 3 "$line" digest damaged.lot
        expect 3 "$line" prove damaged.lot 1 -o proof
        expect 3 "$line" prove-growth damaged.lot 0 -o proof
        compares 3 "${line%%:*}" "$line: damaged.lot" compare-stores damaged.lot store.lot
        compares 3 "${line%%:*}" "$line: damaged.lot" compare-stores store.lot damaged.lot
    done < <(awk 'NR % 7 == 0' "$rules/stores.list")
    still refuses 3 1 '' append damaged.lot entry.1
    still refuses 3 1 '' grow damaged.lot --room 64
    still refuses 3 1 '' append damaged.lot --lines lots.txt
}

# Names with bytes that would break a line are written so that they don't.
odd_names() {
    local name
    expect 0 'log 7, room 16' init odd.lot --log 7 --room 16
    mkdir odd
    name=$'odd/a\nb\rc\td\\e\001f\020g h'
    cp entry.1 "$name"
    expect 0 "1 ${T[1]} "'odd/a\nb\rc\td\\e\x01f\x10g h' append odd.lot "$name"
    cp entry.2 -- ./-x
    expect 0 "2 ${T[2]} -x" append odd.lot -- -x
    cp entry.3 'odd/überall'
    expect 0 "3 ${T[3]} odd/überall" append odd.lot odd/überall
    cp entry.4 $'odd/\377'
    capture append odd.lot $'odd/\377'
    [[ $status == 0 && $answer == "4 ${T[4]} odd/"?*$'\n' ]] || fail 'a name that is no text to be taken'
    # names of lines are made of the file's name
    cp empty-line.txt $'odd/l\ni'
    capture append odd.lot --lines $'odd/l\ni'
    [[ $status == 0 && $answer == '5 '*' odd/l\ni:1'$'\n' ]] || fail 'the name odd/l\ni:1, on one line'
    complains_like 2 'lot append: odd/*: No such file or directory' append odd.lot $'odd/none\nthere'
}
