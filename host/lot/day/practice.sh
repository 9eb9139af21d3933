# The practice: a held file is made, advanced, asked and compared; proofs are checked, good and damaged ones.

day_practice() {
    cp "$rules"/{entry,proof,growth,held}.* .
    first_held
    advance_all
    verify_all
    broken_members
    broken_growths
    broken_helds
    compare_held
    dispute_proofs
    draw_paths
    say "$(($(wc -l <"$rules/members.list") + $(wc -l <"$rules/growths.list"))) damaged proofs, each broken where the rules say"
}

# "1 hop", and "hops" for every other number.
after_hops() { # NUMBER
    [ "$1" -eq 1 ] && echo 'after 1 hop' || echo "after $1 hops"
}

first_held() {
    expect 0 "log 7, count 0, digest ${T[0]}, rows none" hold held --log 7
    same held held.0
    still complains_like 2 'lot hold: held: *' hold held --log 7
    still complains_like 2 'lot hold: held: *' hold held --log 8
    expect 0 "log 7, count 0, digest ${T[0]}, rows none" show held
    expect 0 'accepted: 0 to 8, after 1 hop' advance held 8 "${T[8]}" growth.0.8
    same held held.8
    expect 0 "log 7, count 8, digest ${T[8]}, rows 3" show held
    # an upper-case digest is the same one
    expect 0 'accepted: 8 to 12, after 1 hop' advance held 12 "${T[12]^^}" growth.8.12
    same held held.12
    expect 0 "log 7, count 12, digest ${T[12]}, rows 2 3" show held
    still expect 0 'accepted: 12 to 12, after 0 hops' advance held 12 "${T[12]}" growth.12.12
    gone held.saving
    from_the_store
}

# The words of `digest` are those that `advance` and `compare` take.
from_the_store() {
    local published
    cp "$rules/store.12" store.lot
    capture digest store.lot
    read -ra published <<<"$answer"
    cp held.5 other
    expect 0 'accepted: 5 to 12, after 3 hops' advance other "${published[@]}" growth.5.12
    expect 0 same compare other "${published[@]}"
    rm other store.lot
}

advance_all() {
    local i n
    for ((n = 0; n <= last; n++)); do
        for ((i = 0; i <= n; i++)); do
            cp "held.$i" held
            expect 0 "accepted: $i to $n, $(after_hops "${hops[$i.$n]}")" advance held "$n" "${T[n]}" "growth.$i.$n"
            same held "held.$n"
        done
        expect 0 "log 7, count $n, digest ${T[n]}, rows ${rows[n]}" show held
    done
}

verify_all() {
    local i n line
    for ((n = 1; n <= last; n++)); do
        for ((i = 1; i <= n; i++)); do
            line="accepted: element $i of $n, $(after_hops "${hops[$i.$n]}")"
            expect 0 "$line" verify "held.$n" "$i" "entry.$i" "proof.$i.$n"
            expect 0 "$line" verify "$i" "entry.$i" "proof.$i.$n" --at "$n" --digest "${T[n]}"
        done
    done
}

# Every row of several proofs, one after the other; lengths, digests, entries and positions that are others.
broken_members() {
    local i n digest entry proof line
    while IFS=$'\t' read -r i n digest entry proof line; do
        expect_verdict "$line" verify "$i" "$rules/$entry" "$rules/$proof" --at "$n" --digest "$digest"
        # the same with a held file, where there is one of this length and digest
        [[ $n -le $last && $digest == "${T[n]}" ]] || continue
        expect_verdict "$line" verify "held.$n" "$i" "$rules/$entry" "$rules/$proof"
    done <"$rules/members.list"
}

broken_growths() {
    local held n digest proof after line
    while IFS=$'\t' read -r held n digest proof after line; do
        cp "$rules/$held" held
        expect_verdict "$line" advance held "$n" "$digest" "$rules/$proof"
        same held "$rules/$after"
        gone held.saving
    done <"$rules/growths.list"
}

# A held file that can't be one, by every command that reads it.
broken_helds() {
    local held line
    while IFS=$'\t' read -r held line; do
        cp "$rules/$held" held
        still expect_verdict "$line" show held
        expect_verdict "$line" verify held 5 entry.5 proof.5.12
        expect_verdict "$line" compare held 12 "${T[12]}"
        expect_verdict "$line" advance held 12 "${T[12]}" growth.8.12
        same held "$rules/$held"
    done <"$rules/helds.list"
}

# At 12 the held rows are those of 8 and 0; no other length can be compared.
compare_held() {
    local n
    for n in 12 8 0; do
        still expect 0 same compare held.12 "$n" "${T[n]}"
        still expect_with 1 different '?*' compare held.12 "$n" "${T[5]}"
    done
    for n in 1 4 10 11 13 16 4294967295 18446744073709551615; do
        still complains_like 2 'lot compare: *' compare held.12 "$n" "${T[12]}"
    done
    for n in 11 10 8 0; do expect 0 same compare held.11 "$n" "${T[n]}"; done
    expect 0 same compare held.0 0 "${T[0]}"
    expect_with 1 different '?*' compare held.0 0 "${T[1]}"
    complains_like 2 'lot compare: *' compare held.0 1 "${T[1]}"
}

# Two entries of one place and one digest would be two messages of one SHA-256, so what is seen here is that two
# proofs of the same entry are no dispute, and that a proof that is not accepted is named.
dispute_proofs() {
    local digest=${T[12]}
    cp proof.5.12 bad
    printf 'x' | dd of=bad bs=1 seek=40 conv=notrunc status=none
    still expect 0 same dispute 5 12 "$digest" entry.5 proof.5.12 entry.5 proof.5.12 -o A B
    still refuses 1 13 ', proof 1' dispute 5 12 "$digest" entry.5 bad entry.5 proof.5.12 -o A B
    still refuses 1 13 ', proof 2' dispute 5 12 "$digest" entry.5 proof.5.12 entry.5 bad -o A B
    still refuses 1 13 ', proof 1' dispute 5 12 "$digest" entry.5 bad entry.5 bad -o A B
    still refuses 1 13 ', proof 2' dispute 5 12 "$digest" entry.5 proof.5.12 entry.6 proof.5.12 -o A B
    still refuses 1 13 ', proof 2' dispute 5 12 "$digest" entry.5 proof.5.12 entry.5 growth.5.12 -o A B
    still refuses 1 13 ', proof 1' dispute 5 12 "${T[11]}" entry.5 proof.5.12 entry.5 proof.5.12 -o A B
    head -c 4097 /dev/zero >long
    # 13 stands for every refusal of the check
    still refuses 1 13 ', proof 1' dispute 13 12 "$digest" entry.5 proof.5.12 entry.5 proof.5.12 -o A B
    still refuses 1 13 ', proof 1' dispute 0 12 "$digest" entry.5 proof.5.12 entry.5 proof.5.12 -o A B
    still refuses 1 13 ', proof 1' dispute 5 12 "$digest" long proof.5.12 entry.5 proof.5.12 -o A B
    # two messages need two files, by whatever names
    mkdir folder
    ln -s . here
    ln entry.1 linked.1
    still misused dispute 5 12 "$digest" entry.5 proof.5.12 entry.5 proof.5.12 -o A A
    still misused dispute 5 12 "$digest" entry.5 proof.5.12 entry.5 proof.5.12 -o A ./A
    still misused dispute 5 12 "$digest" entry.5 proof.5.12 entry.5 proof.5.12 -o here/A folder/../A
    still misused dispute 5 12 "$digest" entry.5 proof.5.12 entry.5 proof.5.12 -o entry.1 linked.1
    still misused dispute 5 12 "$digest" entry.5 proof.5.12 entry.5 proof.5.12 -o A -
    still expect 0 same dispute 5 12 "$digest" entry.5 proof.5.12 entry.5 proof.5.12 -o A folder/A
    gone A B
    rm -r long bad folder here linked.1
}

# The picture itself is for people: its first line and, with a proof, its last are settled.
draw_paths() {
    local i n size first count
    for ((n = 1; n <= last; n++)); do
        for ((i = 1; i <= n; i++)); do
            size=$(stat -c %s "proof.$i.$n") count=${hops[$i.$n]}
            first="element $i of $n: $(after_hops "$count" | cut -d ' ' -f 2-), $((count + 1)) component"
            [ "$count" -eq 0 ] || first+=s
            capture draw "$i" "$n"
            [[ $status == 0 && -z $aside && $answer == "$first"*", $size bytes"$'\n'?* ]] || fail "$first, $size bytes, and a picture"
            draw_proof "$first" "accepted: element $i of $n, $(after_hops "$count")" 0 "$i" "$n" "${T[n]}" "entry.$i" "proof.$i.$n"
        done
    done
    broken_pictures
    for n in '0 12' '13 12' '1 4294967296' '0 0' '1 0'; do
        # shellcheck disable=SC2086  # two words
        refuses 2 4 '' draw $n
    done
}

# The first line, a picture, and the line that `verify` would write.
draw_proof() { # FIRST LINE STATUS WORD..
    capture draw "${@:4}"
    [[ $status == "$3" && -z $aside && $answer == "$1"*$'\n'*$'\n'"$2"$'\n' ]] || fail "status $3, $1, a picture, and $2"
}

# A proof that breaks is drawn otherwise than one that holds.
broken_pictures() {
    local i n digest entry proof line good
    while IFS=$'\t' read -r i n digest entry proof line; do
        # there is no picture of a position that is none
        case $line in
        'refused 4:'*) expect 1 "$line" draw "$i" "$n" "$digest" "$rules/$entry" "$rules/$proof" ;;
        *) draw_proof "element $i of $n: " "$line" 1 "$i" "$n" "$digest" "$rules/$entry" "$rules/$proof" ;;
        esac
    done < <(awk 'NR % 3 == 0' "$rules/members.list")
    capture draw 5 12 "${T[12]}" entry.5 proof.5.12
    good=$answer
    cp proof.5.12 bad
    printf 'x' | dd of=bad bs=1 seek=40 conv=notrunc status=none
    capture draw 5 12 "${T[12]}" entry.5 bad
    [[ ${answer%$'\n'*$'\n'} != "${good%$'\n'*$'\n'}" ]] || fail 'the place where the proof breaks to be marked'
    rm bad
}
