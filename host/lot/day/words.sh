# Words: usage, numbers, digests, help, JSON and quiet. Every subcommand, good and refused.

commands=(init grow append count digest audit compare-stores prove prove-growth hold show advance verify compare dispute
    draw root absent present verify-absent verify-present seal seal-close seal-check)

day_words() {
    word_set
    help_pages
    wrong_usage
    wrong_numbers
    wrong_digests
    right_words
    json_house
    json_copies
    json_practice
    json_absence
    json_van
    json_complaints
    quiet_words
    read_answers
    say "help of ${#commands[@]} subcommands, usage, numbers, digests, $answers answers in JSON, quiet"
}

word_set() {
    cp "$rules"/{entry.5,entry.6,proof.5.12,growth.8.12,growth.5.12,held.0,held.5,held.8,held.12,keys.txt,lots.txt} .
    cp "$rules/store.12" store.lot
    cp "$rules/trie.0" present
    cp "$rules/trie.9" absent
    cp "$rules/key.0" first
    cp "$rules/data.1" data
    # damaged copies: T of element 5, a row of a proof, the state of a record, and what breaks a held file
    cp store.lot wrong.lot
    printf 'x' | dd of=wrong.lot bs=1 seek=$((16 + 65 * 4 + 40)) conv=notrunc status=none
    cp store.lot damaged.lot
    printf 'x' | dd of=damaged.lot bs=1 seek=$((16 + 64)) conv=notrunc status=none
    cp store.lot copy.lot
    cp store.lot twin.lot
    head -c $((16 + 65 * 5)) store.lot >five.lot
    cp store.lot eight.lot
    printf '\10' | dd of=eight.lot bs=1 seek=15 conv=notrunc status=none
    cp proof.5.12 bad
    printf 'x' | dd of=bad bs=1 seek=$((32 * 7)) conv=notrunc status=none
    head -c 4097 /dev/zero >long
    : >empty
}

# --- help and usage --------------------------------------------------------------------------------------------

help_pages() {
    local name page number
    for name in "${commands[@]}"; do
        for page in "$name --help" "$name -h" "help $name" "$name store.lot --json --help 1 2 3 4 5 6 7 8 9"; do
            # shellcheck disable=SC2086
            capture $page
            [[ $status == 0 && -z $aside && $answer == "usage: lot $name"* ]] || fail "status 0 and usage: lot $name .."
        done
    done
    capture help
    page=$answer
    [[ $status == 0 && -z $aside ]] || fail 'status 0'
    for name in "${commands[@]}"; do grep -qw -- "$name" <<<"$page" || fail "the manual page to name $name"; done
    for number in 0 1 2 3; do grep -qE "(^|[^0-9])$number([^0-9]|$)" <<<"$page" || fail "the manual page to name status $number"; done
    for number in {1..26}; do
        tr -s ' \n' ' ' <<<"$page" | grep -qF -- "${meaning[number]}" || fail "the manual page to say what $number means: ${meaning[number]}"
        grep -qE "^ +$number +${meaning[number]}\$" <<<"$page" || fail "the manual page to name refusal $number and its meaning on a line"
    done
    in_group 'THE HOUSE' 'THE PRACTICE' '    lot compare-stores STORE1 STORE2'
    capture help --man
    [[ $status == 0 && -z $aside && $answer == *.TH\ * ]] || fail 'a page for man'
    for name in "${commands[@]}"; do [[ $answer == *$'\n.B lot '"${name//-/\\-} "* ]] || fail "the page for man to name $name"; done
    for number in {1..26}; do
        [[ $answer == *$'\n.B '"$number"$'\n'"${meaning[number]}"$'\n'* ]] || fail "the page for man to say what $number means"
    done
    in_group '.SH THE HOUSE' '.SH THE PRACTICE' '.B lot compare\-stores STORE1 STORE2'
    capture --version
    [[ $status == 0 && -z $aside && $answer == 'lot 1.0'*$'\n' && ${answer%$'\n'} != *$'\n'* ]] || fail 'one line that begins with lot 1.0'
    no_command
}

# A line stands once on a page, between two headings.
in_group() { # HEADING NEXT LINE
    local group=${answer#*$'\n'"$1"$'\n'}
    group=${group%%$'\n'"$2"$'\n'*}
    [ "$(grep -cxF -- "$3" <<<"$group")" = 1 ] && [ "$(grep -cxF -- "$3" <<<"$answer")" = 1 ] || fail "'$3' between $1 and $2"
}

no_command() {
    local name
    capture
    [[ $status == 2 && -z $answer && $aside == *'usage: lot'* ]] || fail 'status 2 and the usage on standard error'
    for name in nothing '' Count counts -x --nothing COUNT; do
        capture "$name"
        [[ $status == 2 && -z $answer && -n $aside ]] || fail 'status 2 and a complaint'
    done
    capture help nothing
    [[ $status == 2 && -z $answer && -n $aside ]] || fail 'status 2 and a complaint'
}

# Good words for each command; what is put behind them, or taken away, makes them wrong.
good_words() {
    printf '%s\n' 'init new --log 7 --room 16' 'grow store.lot --room 16' 'append store.lot entry.5' \
        'count store.lot' 'digest store.lot 12' 'audit store.lot' 'compare-stores copy.lot twin.lot' 'prove store.lot 5 -o new' \
        'prove-growth store.lot 5 -o new' 'hold new --log 7' 'show held.12' "advance held.8 12 ${T[12]} growth.8.12" 'verify held.12 5 entry.5 proof.5.12' \
        "compare held.12 12 ${T[12]}" "dispute 5 12 ${T[12]} entry.5 proof.5.12 entry.5 proof.5.12 -o A B" \
        "draw 5 12 ${T[12]} entry.5 proof.5.12" 'root keys.txt' "absent keys.txt ${others[9]} -o new" \
        "present keys.txt ${listed[0]} -o new" "verify-absent $root ${others[9]} absent" "verify-present $root ${listed[0]} present" \
        'seal new --key first --type 2 data' 'seal-close new --key first data' 'seal-check data --first-key first'
}

wrong_usage() {
    local line given
    while read -r line; do
        # shellcheck disable=SC2206
        given=($line)
        still misused "${given[0]}"
        [ "${given[0]}" = append ] || still misused "${given[@]}" word
        still misused "${given[@]}" --nothing
        still misused "${given[@]}" --nothing=1
        still misused "${given[@]}" -x
        still misused_options "${given[@]}"
    done < <(good_words)
    json 2 '{"error":"--json is given twice"}' count store.lot --json
    still misused count store.lot -q --quiet
    still misused count store.lot -q -q
    still misused append store.lot
    still misused append store.lot entry.5 --lines lots.txt
    still misused append --lines lots.txt
    still misused compare-stores store.lot
    still misused compare-stores store.lot copy.lot twin.lot five.lot
    still misused compare-stores none
    still misused compare-stores none none none
    still misused verify 5 entry.5 proof.5.12 --at 12
    still misused verify 5 entry.5 proof.5.12 --digest "${T[12]}"
    still misused verify held.12 5 entry.5 proof.5.12 --at 12 --digest "${T[12]}"
    still misused dispute 5 12 "${T[12]}" entry.5 proof.5.12 entry.5 proof.5.12 -o A
    still misused dispute 5 12 "${T[12]}" entry.5 proof.5.12 entry.5 proof.5.12
    still misused draw 5 12 "${T[12]}"
    still misused draw 5
}

# Each option of a command: twice, without its value, and missing.
misused_options() { # WORD..
    local at next given=("$@")
    for at in "${!given[@]}"; do
        [[ ${given[at]} == -* ]] || continue
        next=$((at + 1))
        misused "$@" "${given[at]}" "${given[next]}"
        misused "${given[@]:0:at}" "${given[@]:next+1}" "${given[at]}"
        misused "${given[@]:0:at}" "${given[@]:next+1}"
    done
}

# --- numbers and digests ---------------------------------------------------------------------------------------

wrong_numbers() {
    local number
    for number in -1 +1 1x x '' ' 1' '1 ' 0x10 1.0 1e3 '١' 18446744073709551616 99999999999999999999999; do
        still rejects init new --log "$number" --room 16
        still rejects init new --log 7 "--room=$number"
        still rejects grow store.lot --room "$number"
        still rejects hold new --log "$number"
        still rejects digest store.lot -- "$number"
        still rejects prove store.lot -o new -- "$number"
        still rejects prove store.lot 5 "--at=$number" -o new
        still rejects prove-growth store.lot -o new -- "$number"
        still rejects advance held.8 -- "$number" "${T[12]}" growth.8.12
        still rejects verify held.12 -- "$number" entry.5 proof.5.12
        still rejects compare held.12 -- "$number" "${T[12]}"
        still rejects draw -- "$number" 12
        still rejects draw -- 5 "$number"
        still rejects dispute -o A B -- "$number" 12 "${T[12]}" entry.5 proof.5.12 entry.5 proof.5.12
        still rejects seal new --key first "--type=$number" data
    done
}

wrong_digests() {
    local digest
    for digest in "${T[12]:1}" "${T[12]}0" "g${T[12]:1}" '' "0x${T[12]:2}" " ${T[12]:1}" "${T[12]:0:63}-" 'é'"${T[12]:2}"; do
        still rejects advance held.8 12 "$digest" growth.8.12
        still rejects compare held.12 12 "$digest"
        still rejects verify 5 entry.5 proof.5.12 --at 12 --digest "$digest"
        still rejects dispute 5 12 "$digest" entry.5 proof.5.12 entry.5 proof.5.12 -o A B
        still rejects draw 5 12 "$digest" entry.5 proof.5.12
        still rejects verify-absent "$digest" "${others[9]}" absent
        still rejects verify-present "$digest" "${listed[0]}" present
    done
}

# Options anywhere, with = or without, and words that look like options behind --.
right_words() {
    local line='accepted: element 5 of 12, after 3 hops'
    expect 0 'log 7, room 3' init --room=3 --log=0007 new
    rm new
    expect 0 'log 18446744073709551615, room 1' init --log 18446744073709551615 new --room 1
    rm new
    expect 0 12 count -- store.lot
    cp store.lot -- -store
    expect 0 12 count -- -store
    expect 0 12 count ./-store
    rm -- -store
    expect 0 equal compare-stores -- store.lot copy.lot
    expect 0 '{"command":"compare-stores","status":0,"answer":"equal"}' compare-stores --json store.lot copy.lot
    expect 1 '' compare-stores five.lot -q copy.lot
    expect 0 "$line" verify --at=12 5 --digest="${T[12]^^}" entry.5 proof.5.12
    expect 0 "$line" verify 5 entry.5 --digest "${T[12]}" proof.5.12 --at 12
    expect 0 'element 5 of 12, 448 bytes' prove -o new store.lot --at 12 5
    same new "$rules/proof.5.12"
    rm new
    expect 0 same dispute -o A B 5 12 "${T[12]}" entry.5 proof.5.12 entry.5 proof.5.12
    expect 0 "absent -x, $(python "$day/size.py" keys.txt -x) bytes" absent -o new -- keys.txt -x
    rm new
}

# --- JSON ------------------------------------------------------------------------------------------------------

json_house() {
    local room="${meaning[5]}"
    json 0 '{"log":7,"room":2}' init json.lot --log 7 --room 2
    json 0 "{\"element\":1,\"name\":\"entry.5\",\"digest\":\"$(python "$day/next.py" empty entry.5)\"}" append json.lot entry.5
    json 3 "[{\"element\":2,\"name\":\"lots.txt:1\"},{\"refused\":5,\"meaning\":\"$room\"}]" append json.lot --lines lots.txt
    json 0 '{"log":7,"room":4,"count":2}' grow json.lot --room 4
    cp entry.6 $'a "name"\n\\ \001 of \377'
    json 0 '{"element":3}' append json.lot $'a "name"\n\\ \001 of \377'
    json 2 '{"refused":3,"meaning":"entry, key or message too long"}' append json.lot long
    json 0 '{"count":12}' count store.lot
    json 0 "{\"count\":12,\"digest\":\"${T[12]}\"}" digest store.lot
    json 0 "{\"count\":5,\"digest\":\"${T[5]}\"}" digest store.lot 5
    json 2 '{"refused":4,"meaning":"no such position or length"}' digest store.lot 13
    json 0 '{"answer":"sound","count":12}' audit store.lot
    json 1 '{"answer":"wrong","refused":12,"meaning":"wrong T","element":5}' audit wrong.lot
    json 3 '{"refused":1,"meaning":"store damaged"}' audit damaged.lot
    json 3 '{"refused":1,"meaning":"store damaged"}' count damaged.lot
    json 3 '{"refused":1,"meaning":"store damaged"}' grow damaged.lot --room 64
    json 0 '{"element":5,"of":12,"bytes":448}' prove store.lot 5 -o new
    json 2 '{"refused":4,"meaning":"no such position or length"}' prove store.lot 13 -o new
    json 0 '{"from":8,"to":12,"bytes":128}' prove-growth store.lot 8 -o new
    json 2 '{"refused":4,"meaning":"no such position or length"}' prove-growth store.lot 13 -o new
    rm new
}

# Whole objects: there is nothing else in them.
json_copies() {
    local one='{"command":"compare-stores","status":1' three='{"command":"compare-stores","status":3'
    json 0 '{"command":"compare-stores","status":0,"answer":"equal"}' compare-stores store.lot copy.lot
    json 1 "$one,\"answer\":\"first shorter\"}" compare-stores five.lot store.lot
    json 1 "$one,\"answer\":\"second shorter\"}" compare-stores store.lot five.lot
    json 1 "$one,\"answer\":\"differ\",\"element\":5,\"byte\":40}" compare-stores wrong.lot store.lot
    json 1 "$one,\"answer\":\"differ\",\"element\":5,\"byte\":40}" compare-stores five.lot wrong.lot
    json 1 "$one,\"refused\":26,\"meaning\":\"log numbers differ\"}" compare-stores eight.lot store.lot
    json 3 "$three,\"refused\":1,\"meaning\":\"store damaged\"}" compare-stores damaged.lot store.lot
    json 3 "$three,\"refused\":1,\"meaning\":\"store damaged\"}" compare-stores eight.lot damaged.lot
    json_unread none compare-stores none store.lot
    json_unread none compare-stores damaged.lot none
    json 2 '{"error":null}' compare-stores - -
    json 2 '{"error":null}' compare-stores store.lot
    json 2 '{"error":null}' compare-stores store.lot copy.lot twin.lot
}

# An answer and a complaint, each an object on its own stream.
json_unread() { # NAME WORD..
    json 2 '{"command":"compare-stores","status":2,"answer":"unread"}' "${@:2}"
    printf '%s\0' "${*:2}" "$2" 2 "{\"error\":\"$1: No such file or directory\"}" "$aside" >>"$work/answers"
}

json_practice() {
    local digest=${T[12]}
    json 0 "{\"log\":7,\"count\":0,\"digest\":\"${T[0]}\",\"rows\":[]}" hold held --log 7
    json 0 "{\"log\":7,\"count\":12,\"digest\":\"$digest\",\"rows\":[2,3]}" show held.12
    json 3 '{"refused":18,"meaning":"held file under 53 bytes"}' show empty
    json 0 '{"answer":"accepted","from":8,"to":12,"hops":1}' advance held.8 12 "$digest" growth.8.12
    cp "$rules/held.8" held.8
    json 1 '{"refused":11,"meaning":"last digest differs","hops":1}' advance held.8 12 "${T[11]}" growth.8.12
    json 1 '{"refused":7,"meaning":"proof length not that of the path"}' advance held.8 12 "$digest" empty
    cp held.5 row
    printf 'x' | dd of=row bs=1 seek=60 conv=notrunc status=none
    json 1 '{"refused":9,"meaning":"basis row differs","element":6,"row":0,"hops":0}' advance row 12 "$digest" growth.5.12
    json 0 '{"answer":"accepted","element":5,"of":12,"hops":3}' verify held.12 5 entry.5 proof.5.12
    json 1 '{"refused":10,"meaning":"link differs","element":8,"level":1,"hops":1}' verify held.12 5 entry.5 bad
    json 1 '{"refused":8,"meaning":"first d is not the entry'"'"'s"}' verify held.12 5 entry.6 proof.5.12
    json 0 '{"answer":"same","count":12}' compare held.12 12 "$digest"
    json 1 "{\"answer\":\"different\",\"count\":8,\"held\":\"${T[8]}\"}" compare held.12 8 "$digest"
    json 0 '{"answer":"same"}' dispute 5 12 "$digest" entry.5 proof.5.12 entry.5 proof.5.12 -o A B
    json 1 '{"refused":13,"meaning":"proof not accepted","proof":2}' dispute 5 12 "$digest" entry.5 proof.5.12 entry.5 bad -o A B
    local drawn='"element":5,"of":12,"hops":3,"bytes":448,"components":[{"element":5,"from":0,"bytes":64,"links":[4]},'
    drawn+='{"element":6,"level":0,"from":64,"bytes":96,"links":[5,4]},{"element":8,"level":1,"from":160,"bytes":160,"links":[7,6,4,0]},'
    drawn+='{"element":12,"level":2,"from":320,"bytes":128,"links":[11,10,8]}]'
    json 0 "{$drawn}" draw 5 12
    json 0 "{$drawn,\"answer\":\"accepted\"}" draw 5 12 "$digest" entry.5 proof.5.12
    json 1 '{"element":8,"level":1,"hops":1,"refused":10,"meaning":"link differs"}' draw 5 12 "$digest" entry.5 bad
    json 2 '{"refused":4,"meaning":"no such position or length"}' draw 13 12
}

json_absence() {
    local listed_key=${listed[0]} other=${others[9]}
    json 0 "{\"root\":\"$root\"}" root keys.txt
    printf 'a\nb\na\n' >twice.txt
    json 3 '{"refused":14,"meaning":"list of handles broken, not rising or too long","line":3}' root twice.txt
    json 0 "{\"key\":\"$other\",\"bytes\":$(stat -c %s absent)}" absent keys.txt "$other" -o new
    json 0 "{\"key\":\"$listed_key\",\"bytes\":8192}" present keys.txt "$listed_key" -o new
    json 1 '{"refused":15,"meaning":"asked kind not true"}' absent keys.txt "$listed_key" -o new
    json 1 '{"refused":15,"meaning":"asked kind not true"}' present keys.txt "$other" -o new
    json 0 "{\"answer\":\"accepted\",\"key\":\"$other\"}" verify-absent "$root" "$other" absent
    json 0 "{\"answer\":\"accepted\",\"key\":\"$listed_key\"}" verify-present "$root" "$listed_key" present
    json 1 '{"refused":16,"meaning":"trie proof length not that of its kind"}' verify-present "$root" "$listed_key" absent
    json 1 '{"refused":17,"meaning":"root differs"}' verify-absent "${T[0]}" "$other" absent
    rm new
}

json_van() {
    cp first key
    json 0 '{"entry":0,"type":2,"bytes":11}' seal log --key key --type 2 data
    json 1 '{"refused":25,"meaning":"no closing entry"}' seal-check log --first-key first
    json 0 '{"entry":1,"type":1}' seal-close log --key key
    json 3 '{"refused":23,"meaning":"van'"'"'s log closed"}' seal log --key key --type 2 data
    json 3 '{"refused":23,"meaning":"van'"'"'s log closed"}' seal-close log --key key
    json 0 '{"answer":"accepted","entries":2}' seal-check log --first-key first
    printf 'x' | dd of=log bs=1 seek=8 conv=notrunc status=none
    json 1 '{"refused":24,"meaning":"entry of a van'"'"'s log wrong","entry":0}' seal-check log --first-key first
    json 3 '{"refused":6,"meaning":"van'"'"'s key not of 32 bytes"}' seal log --key entry.5 --type 2 data
    rm log key
}

# All that were gathered, at once.
read_answers() {
    answers=$(python "$day/answers.py" <"$work/answers") && return 0
    echo failed >>"$work/failures"
    [ -n "${KEEP_GOING:-}" ] || exit 1
}

# Complaints are objects too, on standard error.
json_complaints() {
    local line
    json 2 '{"error":"none: No such file or directory"}' audit none
    json 2 '{"error":"store.lot: a file is there already"}' init store.lot --log 7 --room 16
    while read -r line; do
        # shellcheck disable=SC2086
        json 2 '{"error":null}' ${line%% *}
    done < <(good_words)
    cp store.lot $'odd "\n'
    json 2 '{"error":null}' init $'odd "\n' --log 7 --room 16
}

# --- quiet -----------------------------------------------------------------------------------------------------

# Nothing on standard output, nothing on standard error either, and the same status.
quiet() { # STATUS WORD..
    capture "${@:2}" "$quiet"
    [[ $status == "$1" && -z $answer && -z $aside ]] || fail "status $1 and no word"
}

quiet_words() {
    local line quiet
    for quiet in -q --quiet; do
        rm -f A B
        while read -r line; do
            cp "$rules/key.0" first
            cp "$rules/held.8" .
            rm -f new
            # shellcheck disable=SC2086
            case $line in
            seal-check*) quiet 1 $line ;;
            *) quiet 0 $line ;;
            esac
        done < <(good_words)
        gone A B
        quiet_troubles
    done
}

# A complaint is told all the same: it is no answer.
quiet_troubles() {
    quiet 1 audit wrong.lot
    quiet 3 audit damaged.lot
    quiet 0 compare-stores copy.lot twin.lot
    quiet 1 compare-stores five.lot copy.lot
    quiet 1 compare-stores copy.lot five.lot
    quiet 1 compare-stores copy.lot wrong.lot
    quiet 1 compare-stores copy.lot eight.lot
    quiet 3 compare-stores damaged.lot copy.lot
    quiet 3 compare-stores copy.lot damaged.lot
    quiet 1 verify held.12 5 entry.5 bad
    quiet 1 compare held.12 12 "${T[5]}"
    quiet 3 show empty
    quiet 1 draw 5 12 "${T[12]}" entry.5 bad
    quiet 1 absent keys.txt "${listed[0]}" -o new
    capture audit none "$quiet"
    [[ $status == 2 && -z $answer ]] || fail 'status 2 and nothing on standard output'
    complains 2 'lot compare-stores: none: No such file or directory' compare-stores none copy.lot "$quiet"
    complains 2 'lot compare-stores: none: No such file or directory' compare-stores damaged.lot none "$quiet"
    json 2 '{"error":"none: No such file or directory"}' compare-stores copy.lot none "$quiet"
}
