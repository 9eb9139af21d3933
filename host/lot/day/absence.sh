# Absence and presence: a list of withdrawn lots, its root, and proofs of what is in it and what is not.

day_absence() {
    cp "$rules"/{keys,handles}.txt .
    roots
    proofs
    untrue_kinds
    broken_lists
    long_keys
    checked_proofs
    say "${#listed[@]} keys listed and ${#others[@]} others, $(wc -l <"$rules/tries.list") proofs, good and damaged"
}

# The order of keys, the case of handles and the last line feed make no difference.
roots() {
    expect 0 "$root" root keys.txt
    expect 0 "$root" root handles.txt --handles
    tac keys.txt >backward.txt
    expect 0 "$root" root backward.txt
    head -c -1 keys.txt >no-end.txt
    expect 0 "$root" root no-end.txt
    tr a-f A-F <handles.txt >upper.txt
    expect 0 "$root" root --handles upper.txt
    : >empty.txt
    expect 0 "$empty_root" root empty.txt
    expect 0 "$empty_root" root empty.txt --handles
    expect 0 "$root_1000" root "$rules/1000.txt" --handles
    seq 0 999 >thousand.txt
    capture root thousand.txt
    [[ $status == 0 && $answer =~ ^[0-9a-f]{64}$'\n'$ ]] || fail 'a thousand keys to be taken'
}

proofs() {
    local at size
    for at in "${!listed[@]}"; do
        expect 0 "present ${listed[at]}, 8192 bytes" present keys.txt "${listed[at]}" -o proof
        same proof "$rules/trie.$at"
        expect 0 "present ${listed[at]}, 8192 bytes" present handles.txt "${listed[at]}" --handles -o proof
        same proof "$rules/trie.$at"
    done
    for at in "${!others[@]}"; do
        size=$(stat -c %s "$rules/trie.$at")
        expect 0 "absent ${others[at]}, $size bytes" absent keys.txt "${others[at]}" -o proof
        same proof "$rules/trie.$at"
        expect 0 "absent ${others[at]}, $size bytes" absent --handles handles.txt "${others[at]}" -o proof
        same proof "$rules/trie.$at"
    done
    expect 0 'absent A, 0 bytes' absent empty.txt A -o proof
    [ ! -s proof ] || fail 'an empty proof'
    expect 0 'accepted: A is absent' verify-absent "$empty_root" A proof
    rm proof
}

# A kind that is not true: nothing is written, and what was there stays.
untrue_kinds() {
    echo as it was >proof
    still refuses 1 15 ", ${listed[0]} is in the list" absent keys.txt "${listed[0]}" -o proof
    still refuses 1 15 ", ${others[9]} is not in the list" present keys.txt "${others[9]}" -o proof
    rm proof
    still refuses 1 15 ", ${listed[3]} is in the list" absent handles.txt --handles "${listed[3]}" -o proof
    still refuses 1 15 ', A is not in the list' present empty.txt A -o proof
}

# A list that is none is refused by all three commands that read one.
refuses_list() { # PLACE LIST [OPTION]
    still refuses 3 14 "$1" root "${@:2}"
    still refuses 3 14 "$1" absent "${@:2}" A -o proof
    still refuses 3 14 "$1" present "${@:2}" A -o proof
}

broken_lists() {
    printf 'one\ntwo\nthree\ntwo\n' >twice.txt
    refuses_list ' at line 4' twice.txt
    printf '\n\n' >two-empty.txt
    refuses_list ' at line 2' two-empty.txt
    { sed -n 1,3p handles.txt; sed -n 3p handles.txt; } >again.txt
    refuses_list ' at line 4' again.txt --handles
    tac handles.txt >falling.txt
    refuses_list ' at line 2' falling.txt --handles
    { sed -n 1,2p handles.txt; sed -n 3p handles.txt | cut -c 2-; } >short.txt
    refuses_list ' at line 3' short.txt --handles
    { sed -n 1p handles.txt; sed -n '2s/$/0/p' handles.txt; } >longer.txt
    refuses_list ' at line 2' longer.txt --handles
    sed '1s/^./g/' handles.txt >letter.txt
    refuses_list ' at line 1' letter.txt --handles
    refuses_list ' at line 1' keys.txt --handles
    # over a thousand, and far more, of which no more is read than shows that
    refuses_list ' at line 1001' "$rules/1001.txt" --handles
    seq 0 1000 >1001.txt
    refuses_list ' at line 1001' 1001.txt
    seq 1000000 >million.txt
    refuses_list ' at line 1001' million.txt
    { seq 1000; seq 1000; } >again.txt
    refuses_list ' at line 1001' again.txt
    rm million.txt
    spaces_around
}

# A key with a space or a carriage return at its end was hardly meant so: the list is not taken.
spaces_around() {
    local line
    for line in ' a' 'a ' $'\ta' $'a\t' $'\ra' $'a\r' ' ' $'\r'; do
        printf 'one\n%s\nthree\n' "$line" >spaced.txt
        still complains_like 2 'lot root: spaced.txt*' root spaced.txt
        still complains_like 2 'lot absent: spaced.txt*' absent spaced.txt A -o proof
        still complains_like 2 'lot present: spaced.txt*' present spaced.txt A -o proof
    done
    printf 'a b\nc\td\n' >inside.txt
    capture root inside.txt
    [ "$status" = 0 ] || fail 'spaces within a key to be taken'
}

long_keys() {
    local long
    printf -v long '%04097d' 0
    still refuses 2 3 '' absent keys.txt "$long" -o proof
    still refuses 2 3 '' present keys.txt "$long" -o proof
    refuses 1 3 '' verify-absent "$root" "$long" "$rules/trie.9"
    refuses 1 3 '' verify-present "$root" "$long" "$rules/trie.0"
    printf '%s\nb\n' "$long" >long.txt
    still refuses 2 3 ' at line 1' root long.txt
    still refuses 2 3 ' at line 1' absent long.txt A -o proof
    still refuses 2 3 ' at line 1' present long.txt A -o proof
}

# Every proof, good and damaged, is answered as the rules say.
checked_proofs() {
    local command under key proof line
    while IFS=$'\t' read -r command under key proof line; do
        expect_verdict "$line" "$command" "$under" "$key" "$rules/$proof"
        expect_verdict "$line" "$command" "${under^^}" "$key" "$rules/$proof"
    done <"$rules/tries.list"
}
