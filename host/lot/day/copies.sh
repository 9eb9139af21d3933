# Copies: two stores that should agree. Whether they do, which one is shorter, or from which byte on they differ.

day_copies() {
    local missing='No such file or directory' broken="refused 1: ${meaning[1]}"
    made_pairs
    copy_set
    made_by_append
    grown_copy
    names_of_copies
    links_to_copies
    odd_copies
    copy_from_input
    unread_copies
    rights_of_copies
    copies_not_written
    beside_an_append
    say "$pairs pairs of stores, $besides comparisons beside an append"
}

# The pairs of copies.py, in a folder of their own; none of them is changed.
made_pairs() {
    mkdir pairs
    cd pairs
    python "$day/copies.py" "$rules/lots.txt"
    pairs=$(wc -l <pairs.list)
    still compare_pairs
    cd ..
    mv pairs/large .
    rm -r pairs
}

# Each pair as the rule says.
compare_pairs() {
    local first second owed line beside
    while IFS=$'\t' read -r first second owed line beside; do
        compares "$owed" "$line" "$beside" compare-stores "$first" "$second"
    done <pairs.list
}

# A store of 12 lots, and others: shorter, changed at two elements, damaged, too short for a header, and of another log.
copy_set() {
    cp "$rules/store.12" store
    cp "$rules/store.5" five
    cp "$rules/store.0" none
    cp store changed
    printf 'x' | dd of=changed bs=1 seek=$((16 + 65 * 6 + 32)) conv=notrunc status=none
    printf 'x' | dd of=changed bs=1 seek=$((16 + 65 * 8)) conv=notrunc status=none
    cp store damaged
    printf 'x' | dd of=damaged bs=1 seek=$((16 + 65 * 11 + 64)) conv=notrunc status=none
    head -c 15 store >stub
    cp store eight
    printf '\10' | dd of=eight bs=1 seek=15 conv=notrunc status=none
    still each_answer store five changed eight damaged
}

# Every answer, in both orders, with the stores by these names.
each_answer() { # STORE FIVE CHANGED EIGHT DAMAGED
    compares 0 equal '' compare-stores "$1" "$1"
    compares 1 'first shorter' '' compare-stores "$2" "$1"
    compares 1 'second shorter' '' compare-stores "$1" "$2"
    compares 1 'first shorter' '' compare-stores "$2" "$3"
    compares 1 'differ 7 32' '' compare-stores "$1" "$3"
    compares 1 'differ 7 32' '' compare-stores "$3" "$1"
    compares 1 'refused 26' "refused 26: ${meaning[26]}" compare-stores "$1" "$4"
    compares 1 'refused 26' "refused 26: ${meaning[26]}" compare-stores "$4" "$2"
    compares 3 'refused 1' "$broken: $5" compare-stores "$1" "$5"
    compares 3 'refused 1' "$broken: $5" compare-stores "$5" "$4"
    compares 2 unread "no such: $missing" compare-stores "$1" 'no such'
    compares 2 unread "no such: $missing" compare-stores 'no such' "$5"
}

# A copy that another branch filled by itself, lot by lot, agrees after each.
made_by_append() {
    local j
    expect 0 'log 7, room 14' init branch --log 7 --room 14
    for ((j = 1; j <= last; j++)); do
        compares 1 'first shorter' '' compare-stores branch store
        expect 0 "$j ${T[j]} $rules/entry.$j" append branch "$rules/entry.$j"
        compares 0 equal '' compare-stores branch "$rules/store.$j"
        compares 0 equal '' compare-stores "$rules/store.$j" branch
    done
    # one lot is another one: what comes behind it differs too, but the first is told
    expect 0 'log 7, room 14' init other --log 7 --room 14
    capture append other "$rules/entry.1" "$rules/entry.2" "$rules/entry.4" "$rules/entry.4"
    for j in branch store "$rules/store.3" "$rules/store.4"; do
        capture compare-stores other "$j"
        [[ $status == 1 && $answer == 'differ 3 '[0-9]$'\n' && -z $aside ]] || fail 'differ 3, and a byte of d'
    done
    compares 1 'second shorter' '' compare-stores other "$rules/store.2"
}

# The room is no part of the log: neither more of it nor what stands there.
grown_copy() {
    cp branch grown
    expect 0 'log 7, room 64, count 12' grow grown --room 64
    still compares 0 equal '' compare-stores branch grown
    still compares 0 equal '' compare-stores grown branch
    still compares 0 equal '' compare-stores grown store
    still compares 1 'second shorter' '' compare-stores grown five
    still compares 1 'differ 7 32' '' compare-stores grown changed
    expect 0 "13 ${T[13]} $rules/entry.1" append grown "$rules/entry.1"
    still compares 1 'first shorter' '' compare-stores branch grown
    still compares 1 'second shorter' '' compare-stores grown branch
    expect 0 "13 ${T[13]} $rules/entry.1" append branch "$rules/entry.1"
    still compares 0 equal '' compare-stores branch grown
    # an append that was ended before its state byte leaves d and T of a lot that is not in the log
    cp branch left
    dd if="$rules/store.12" of=left bs=1 skip=16 seek=$((16 + 65 * 13)) count=64 conv=notrunc status=none
    [ "$(cmp -l branch left | wc -l)" -gt 50 ] || fail 'bytes in the open record'
    still compares 0 equal '' compare-stores branch left
    still compares 0 equal '' compare-stores left grown
    expect 0 "14 ${T[14]} $rules/entry.2" append left "$rules/entry.2"
    still compares 1 'second shorter' '' compare-stores left branch
}

# --- names -----------------------------------------------------------------------------------------------------

# One file for both; and a damaged one is named as it was given, each of the two.
names_of_copies() {
    local name
    for name in store five none changed eight branch grown; do still compares 0 equal '' compare-stores "$name" "$name"; done
    mkdir folder
    still each_answer ./store folder/../five ../copies/changed ./eight "$PWD/damaged"
    still compares 3 'refused 1' "$broken: damaged, stub" compare-stores damaged stub
    still compares 3 'refused 1' "$broken: stub, damaged" compare-stores stub damaged
    still compares 3 'refused 1' "$broken: ./stub, $PWD/damaged" compare-stores ./stub "$PWD/damaged"
    cp damaged -- --json
    cp store -- -q
    still compares 3 'refused 1' "$broken: --json" compare-stores -- -q --json
    still compares 0 equal '' compare-stores store -- -q
    rm -- --json -q
}

links_to_copies() {
    local name
    for name in store five changed eight damaged; do ln -s "../$name" "folder/$name"; done
    ln -s folder/store twice-linked
    ln store hard
    ln -s nowhere lost
    ln -s round round
    ln -s folder to-folder
    still each_answer folder/store folder/five folder/changed folder/eight folder/damaged
    still each_answer to-folder/store five to-folder/changed folder/eight to-folder/damaged
    still compares 0 equal '' compare-stores twice-linked hard
    still compares 0 equal '' compare-stores hard folder/store
    still unread lost "$missing" compare-stores lost store
    still unread lost "$missing" compare-stores store lost
    still unread round 'Too many levels of symbolic links' compare-stores round store
    still unread to-folder 'Is a directory' compare-stores store to-folder
    rm -r folder twice-linked hard lost round to-folder
}

# Names with bytes that would break a line are written so that they don't.
odd_copies() {
    local name=$'a\nb\rc\td\\e\001f\020g h' told='a\nb\rc\td\\e\x01f\x10g h'
    cp stub "$name"
    still compares 3 'refused 1' "$broken: $told" compare-stores "$name" store
    still compares 3 'refused 1' "$broken: damaged, $told" compare-stores damaged "$name"
    rm "$name"
    still unread "$told" "$missing" compare-stores store "$name"
    cp stub 'überall'
    still compares 3 'refused 1' "$broken: überall" compare-stores store überall
    cp store $'\377'
    still compares 0 equal '' compare-stores $'\377' store
    still compares 2 unread ": $missing" compare-stores '' store
    rm überall $'\377'
}

# --- standard input --------------------------------------------------------------------------------------------

# Either of the two may be -, from a file or a pipe, however it comes.
copy_from_input() {
    local size
    input=store still compares 0 equal '' compare-stores - store
    input=store still compares 0 equal '' compare-stores store -
    input=store compares 1 'second shorter' '' compare-stores - five
    input=five compares 1 'first shorter' '' compare-stores - store
    input=five compares 1 'second shorter' '' compare-stores store -
    input=changed compares 1 'differ 7 32' '' compare-stores - grown
    input=eight compares 1 'refused 26' "refused 26: ${meaning[26]}" compare-stores store -
    input=damaged compares 3 'refused 1' "$broken: -" compare-stores - store
    input=damaged compares 3 'refused 1' "$broken: stub, -" compare-stores stub -
    compares 3 'refused 1' "$broken: -" compare-stores - store # nothing comes
    input=store still rejects compare-stores - -
    cp five ./-
    input=store compares 0 equal '' compare-stores ./- five
    rm ./-
    # more than a pipe holds at once, in pieces that end anywhere
    cp large large-bad
    printf 'x' | dd of=large-bad bs=1 seek=$((16 + 65 * 1299 + 63)) conv=notrunc status=none
    still compares 0 equal '' compare-stores large large
    still compares 1 'differ 1300 63' '' compare-stores large large-bad
    head -c $((16 + 65 * 600)) large >short
    for size in 1 77 4096 1000000; do
        piped_copy "$size" large compares 0 equal '' compare-stores - large
        piped_copy "$size" large compares 1 'differ 1300 63' '' compare-stores large-bad -
        piped_copy "$size" large-bad compares 1 'differ 1300 63' '' compare-stores large -
        piped_copy "$size" short compares 1 'first shorter' '' compare-stores - large
    done
}

# A check whose standard input is a pipe, into which a file goes in pieces of this size.
piped_copy() { # SIZE FILE CHECK..
    local feeder
    [ -p pipe ] || mkfifo pipe
    dd if="$2" of=pipe bs="$1" status=none &
    feeder=$!
    input=pipe "${@:3}"
    wait "$feeder" || fail 'all of standard input to be read'
}

# --- files that can't be read ------------------------------------------------------------------------------------

# A file that can't be read is told before damage or another log is; of two the complaint names one or both.
unread_copies() {
    local other
    mkdir folder
    for other in store five eight damaged stub; do
        still unread gone "$missing" compare-stores gone "$other"
        still unread gone "$missing" compare-stores "$other" gone
        still unread folder 'Is a directory' compare-stores folder "$other"
        still unread folder 'Is a directory' compare-stores "$other" folder
        still unread store/in 'Not a directory' compare-stores store/in "$other"
        still unread folder/in "$missing" compare-stores "$other" folder/in
    done
    input=store still unread gone "$missing" compare-stores - gone
    input=damaged still unread gone "$missing" compare-stores gone -
    still capture compare-stores gone folder
    [[ $status == 2 && $answer == $'unread\n' && $aside == *"lot compare-stores: gone: $missing"$'\n'* ]] ||
        [[ $status == 2 && $answer == $'unread\n' && $aside == *$'lot compare-stores: folder: Is a directory\n'* ]] ||
        fail 'unread, and a complaint of one of the two or of both'
    rmdir folder
}

# Reading takes the right to read and no other.
rights_of_copies() {
    mkdir -m 755 closed
    cp store five changed eight damaged closed
    chmod 444 closed/*
    chmod 555 closed
    cd closed
    as_stranger still each_answer store five changed eight damaged
    chmod 000 five damaged
    as_stranger still unread five 'Permission denied' compare-stores store five
    as_stranger still unread five 'Permission denied' compare-stores five store
    as_stranger still unread damaged 'Permission denied' compare-stores eight damaged
    chmod 222 five
    as_stranger still unread five 'Permission denied' compare-stores five changed
    cd ..
    chmod 644 closed
    as_stranger unread closed/store 'Permission denied' compare-stores closed/store store
    chmod 755 closed
    rm -rf closed
}

# --- standard output -------------------------------------------------------------------------------------------

# An answer that can't be written is a complaint, whatever it would have been.
copies_not_written() {
    local other full reader
    exec {full}>/dev/full
    for other in store five changed eight damaged gone; do
        still answer_lost "$full" 'No space left on device' compare-stores store "$other"
        still answer_lost "$full" 'No space left on device' compare-stores "$other" store --json
    done
    exec {full}>&-
    # a pipe that nobody reads from any more
    [ -p pipe ] || mkfifo pipe
    exec {reader}<>pipe # does not wait for a writer
    exec {full}>pipe
    exec {reader}>&-
    for other in store five changed eight damaged gone; do
        still answer_lost "$full" 'Broken pipe' compare-stores store "$other"
    done
    exec {full}>&-
    # with -q there is no answer to be lost
    exec {full}>/dev/full
    lost_quietly 0 store store
    lost_quietly 1 store five
    lost_quietly 3 store damaged
    exec {full}>&-
}

# The complaint is the last line; the meaning of a refusal may stand before it.
answer_lost() { # DESCRIPTOR REASON WORD..
    words=("${@:3}") answer='' status=0
    lot "${@:3}" <"$input" 1>&"$1" 2>"$work/err" || status=$?
    aside=$(<"$work/err")
    [[ $status == 2 && ${aside##*$'\n'} == *'standard output: '"$2"* ]] || fail "status 2, and 'standard output: $2' on standard error"
    tally
}

lost_quietly() { # STATUS STORE STORE
    words=(compare-stores "$2" "$3" -q) answer='' status=0
    lot "${words[@]}" <"$input" 1>&"$full" 2>"$work/err" || status=$?
    aside=$(<"$work/err")
    [[ $status == "$1" && -z $aside ]] || fail "status $1 and no word"
    tally
}

# --- beside a writer -------------------------------------------------------------------------------------------

# While lots are appended a copy that has them all is never anything but longer; and when the append was ended, what
# it left is a copy of the same beginning.
beside_an_append() {
    local writer
    besides=0
    seq -f 'lot %.0f' 1300 >lots
    expect 0 'log 7, room 1300' init growing --log 7 --room 1300
    (exec "${emulator[@]}" "$lot" append growing --lines lots) </dev/null >printed 2>complained &
    writer=$!
    while [ "$besides" -lt 200 ] && kill -0 "$writer" 2>/dev/null; do
        capture compare-stores growing large
        [[ $status.$answer == 1.$'first shorter\n' || $status.$answer == 0.$'equal\n' ]] && [ -z "$aside" ] || fail 'first shorter, or equal'
        capture compare-stores large growing
        [[ $status.$answer == 1.$'second shorter\n' || $status.$answer == 0.$'equal\n' ]] && [ -z "$aside" ] || fail 'second shorter, or equal'
        besides=$((besides + 2))
    done
    kill -KILL "$writer" 2>/dev/null || true
    { wait "$writer" || true; } 2>/dev/null
    [[ $besides -gt 0 && ! -s complained ]] || fail 'comparisons beside the append, and no complaint of it'
    capture count growing
    head -c $((16 + 65 * ${answer%$'\n'})) large >begun
    compares 0 equal '' compare-stores growing begun
    compares 0 equal '' compare-stores begun growing
}
