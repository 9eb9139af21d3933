# Two writers at once, and processes that are ended in the middle of an append, of an advance and of a seal.
#
# The processes that are ended are started here, in the background, and ended by their own number.

rounds_append=40
rounds_advance=40
rounds_seal=20
rounds_grow=20

day_writers() {
    local old=0 new=0
    second_writer
    overtaken_advance
    pairs_of_advances
    pairs_of_makers
    pairs_of_seals
    append_many_lines
    cut_appends
    cut_advances
    cut_seals
    cut_grows
    drawn_bar
    say "ended in the middle: $rounds_append appends after $appended lots, $rounds_advance advances ($old before, $new after)," \
        "$rounds_seal rounds of seals, $rounds_grow grows; 150 pairs at once"
}

# Starts the program in the background; `process` is its number. The files for its streams are emptied first: it may
# be ended before its own shell has come to that.
start() { # WORD..
    : >printed
    : >complained
    (exec "${emulator[@]}" "$lot" "$@") </dev/null >printed 2>complained &
    process=$!
}

# Ends the process that was started, if it is still there, and waits for it.
finish() { # KIND
    kill -KILL "$process" 2>/dev/null || true
    { wait "$process" || true; } 2>/dev/null
    printf 'ended %s\n' "$1" >>"$work/tally"
}

# Waits until a file has bytes in it, as long as the process is there, and half a minute at most.
until_written() { # FILE
    local began
    now; began=$microseconds
    until [ -s "$1" ]; do
        now
        kill -0 "$process" 2>/dev/null && [ $((microseconds - began)) -lt 30000000 ] || return 0
        pause 200
    done
}

# --- two at once -----------------------------------------------------------------------------------------------

# The first writer waits for its next line; it has the store meanwhile, and readers go on beside it.
second_writer() {
    local lines held="another process has it open for writing"
    cp "$rules"/{entry,growth,proof,held}.* "$rules/lots.txt" .
    expect 0 'log 7, room 16' init store.lot --log 7 --room 16
    mkfifo lines
    start append store.lot --lines lines
    exec {lines}<>lines # does not wait for a reader, should there be none
    sed -n 1p lots.txt >&"$lines"
    until_written printed
    complains 2 "lot append: store.lot: $held" append store.lot entry.2
    complains 2 "lot append: store.lot: $held" append store.lot --lines lots.txt
    complains 2 "lot grow: store.lot: $held" grow store.lot --room 32
    complains 2 'lot init: store.lot: a file is there already' init store.lot --log 7 --room 16
    gone store.lot.growing
    expect 0 1 count store.lot
    expect 0 "1 ${T[1]}" digest store.lot
    expect 0 'sound 1' audit store.lot
    compares 0 equal '' compare-stores store.lot "$rules/store.1"
    compares 1 'second shorter' '' compare-stores "$rules/store.2" store.lot
    expect 0 'element 1 of 1, 64 bytes' prove store.lot 1 -o proof
    expect 0 '0 to 1, 64 bytes' prove-growth store.lot 0 -o growth
    sed -n 2,3p lots.txt >&"$lines"
    exec {lines}>&-
    wait "$process" || fail 'the first writer to end well'
    [ "$(<printed)" = "$(for j in 1 2 3; do echo "$j ${T[j]} lines:$j"; done)" ] || fail 'the three lots of the first writer'
    expect 0 "4 ${T[4]} entry.4" append store.lot entry.4
    expect 0 'log 7, room 32, count 4' grow store.lot --room 32
    store_is store.lot 4 32
    killed_writer
}

# A writer that is ended has the store no longer.
killed_writer() {
    start append store.lot --lines lines
    exec {lines}<>lines
    sed -n 5p lots.txt >&"$lines"
    until_written printed
    complains 2 'lot append: store.lot: another process has it open for writing' append store.lot entry.6
    kill -KILL "$process"
    { wait "$process" || true; } 2>/dev/null
    exec {lines}>&-
    expect 0 "6 ${T[6]} entry.6" append store.lot entry.6
    store_is store.lot 6 32
}

# Starts two commands at the same time, given with a word `and` between them, and waits for both.
both() { # WORD.. and WORD..
    local first second at=1
    until [ "${!at}" = and ]; do at=$((at + 1)); done
    (exec "${emulator[@]}" "$lot" "${@:1:at-1}") </dev/null >one 2>one.err &
    first=$!
    (exec "${emulator[@]}" "$lot" "${@:at+1}") </dev/null >two 2>two.err &
    second=$!
    words=("$@") status1=0 status2=0
    wait "$first" || status1=$?
    wait "$second" || status2=$?
    status="$status1 and $status2" answer=$(cat one two) aside=$(cat one.err two.err)
    printf 'ran %s %s\n' "$1" "$status1" "$1" "$status2" >>"$work/tally"
    both_clear "$1"
}

# Who was second has either looked at what the first left, or complains of it by name.
both_clear() { # COMMAND
    [[ $status1 != 2 || ! -s one && $(<one.err) == "lot $1: "* ]] || fail 'a complaint of the first'
    [[ $status2 != 2 || ! -s two && $(<two.err) == "lot $1: "* ]] || fail 'a complaint of the second'
    gone held.saving
}

# Two advances of one held file at the same time, to 8 and to 12: it is one of the two afterwards, and never goes back.
pairs_of_advances() {
    local at
    pairs=60
    for ((at = 0; at < pairs; at++)); do
        cp held.0 held
        both advance held 8 "${T[8]}" growth.0.8 and advance held 12 "${T[12]}" growth.0.12
        case $status in
        '0 and 0') same held held.12 ;; # 8 must have come first
        '0 and '[12]) same held held.8 ;;
        [12]' and 0') same held held.12 ;;
        *) fail 'one of the two to be accepted' ;;
        esac
    done
}

# An advance to 8 has read the held file and waits for its proof while another one advances to 12: the first must not
# put its older state over the newer one.
overtaken_advance() {
    local feeder
    cp held.0 held
    rm -f opened go
    mkfifo slow
    start advance held 8 "${T[8]}" slow
    # opening a pipe waits for its reader, which has read the held file by then
    timeout 30 bash -c 'exec 3>slow; : >opened; until [ -e go ]; do sleep 0.01; done; cat growth.0.8 >&3' &
    feeder=$!
    until [ -e opened ]; do kill -0 "$feeder" 2>/dev/null || break; pause 1000; done
    expect 0 'accepted: 0 to 12, after 2 hops' advance held 12 "${T[12]}" growth.0.12
    : >go
    words=(advance held 8) status=0
    wait "$process" || status=$?
    wait "$feeder" || true
    answer=$(<printed) aside=$(<complained)
    [[ $status == 2 && -z $answer && $aside == 'lot advance: held: another process has changed it meanwhile' ]] ||
        fail 'status 2 and a complaint: the held file was changed meanwhile'
    same held held.12
    gone held.saving
    rm slow opened go
}

# Two that make one file: one of them does, and the other complains; two proofs into one file: it is one of them.
pairs_of_makers() {
    local at
    for ((at = 0; at < 20; at++)); do
        rm -f new proof
        both init new --log 7 --room 3 and init new --log 7 --room 3
        [[ $status == '0 and 2' || $status == '2 and 0' ]] || fail 'one of the two to make the store'
        store_is new 0 3
        rm new
        both hold new --log 7 and hold new --log 7
        [[ $status == '0 and 2' || $status == '2 and 0' ]] || fail 'one of the two to make the held file'
        same new held.0
        both prove store.lot 5 -o proof and prove store.lot 6 -o proof
        [[ $status == *0* && $status != *[13]* ]] || fail 'one of the two to be written'
        cmp -s proof "$rules/proof.5.6" || same proof "$rules/proof.6.6"
        [ "$(echo proof*)" = "proof $(cd "$rules" && echo proof.*)" ] || fail 'nothing beside the proof'
    done
    rm -f new proof
}

# Two seals at the same time never use one key: what was answered is in the log, and the log is accepted.
pairs_of_seals() {
    local at
    for at in 1 2 3 4 5 6; do echo "the $at. time that the door was opened" >"door.$at"; done
    cp "$rules/key.0" key
    pair_entries=0
    for ((at = 0; at < 30; at++)); do
        both seal log --key key --type 2 door.1 and seal log --key key --type 2 door.2
        [[ $status == *0* && $status != *[13]* ]] || fail 'one of the two to be sealed'
        pair_entries=$((pair_entries + $(cat one two | wc -l)))
    done
    expect 0 "entry $pair_entries, closed" seal-close log --key key
    expect 0 "accepted: $((pair_entries + 1)) entries, closed" seal-check log --first-key "$rules/key.0"
    rm log key
}

# --- ends in the middle ----------------------------------------------------------------------------------------

# Makes so many lines that an append of all takes about 0.3 s, and measures how long it takes; more, for the bar.
append_many_lines() {
    local began count=200
    seq -f 'lot %.0f of a long day' "$count" >many.txt
    expect 0 "log 7, room $count" init many.lot --log 7 --room "$count"
    now; began=$microseconds
    capture append many.lot --lines many.txt
    now
    [ "$status" = 0 ] || fail 'status 0'
    store_is many.lot "$count" "$count" many.txt
    rate=$((count * 1000000 / (microseconds - began) + 1)) # lots a second
    many=$((rate * 3 / 10 + 20))
    seq -f 'lot %.0f of a long day' "$many" >many.txt
    rm many.lot
    expect 0 "log 7, room $many" init whole.lot --log 7 --room "$many"
    capture append whole.lot --lines many.txt
    store_is whole.lot "$many" "$many" many.txt
}

cut_appends() {
    local round moment
    appended=0
    printf 'the lot after the end' >next
    for ((round = 0; round < rounds_append; round++)); do
        rm -f many.lot
        expect 0 "log 7, room $((many + 1))" init many.lot --log 7 --room $((many + 1))
        start append many.lot --lines many.txt
        # every other time only once lots have been answered
        [ $((round % 2)) -eq 0 ] || until_written printed
        random_moment 250000
        pause "$moment"
        finish append
        judge_append
    done
}

# Every answered lot is in the log, at most one more is, and the log goes on.
judge_append() {
    local count next
    words=(append many.lot --lines many.txt) status=killed answer='' aside=$(<complained)
    read -r count next <<<"$(python "$day/ends.py" append many.txt printed many.lot $((many + 1)) next 2>&1)"
    [[ $count =~ ^[0-9]+$ ]] || fail "$count $next"
    appended=$((appended + count))
    expect 0 "$count" count many.lot
    expect 0 "sound $count" audit many.lot
    # whatever else was left there, the log is a beginning of the whole one
    case $count in
    "$many") compares 0 equal '' compare-stores many.lot whole.lot ;;
    *) compares 1 'first shorter' '' compare-stores many.lot whole.lot ;;
    esac
    expect 0 "$((count + 1)) $next next" append many.lot next
    expect 0 "sound $((count + 1))" audit many.lot
}

# How long the command takes, in microseconds: the mean of ten.
usual_time() { # FUNCTION
    local at began took=0
    for ((at = 0; at < 10; at++)); do
        cp held.0 held
        rm -f log
        cp "$rules/key.0" key
        [ ! -e small.lot ] || cp small.lot grown.lot
        now; began=$microseconds
        "$@"
        now
        took=$((took + microseconds - began))
    done
    usual=$((took / 10))
}

in_background() { # WORD..
    start "$@"
    wait "$process" || fail 'the command to end well'
}

# The held file is the old state or the new one; it can be advanced from there.
cut_advances() {
    local round moment usual
    usual_time in_background advance held 8 "${T[8]}" growth.0.8
    for ((round = 0; round < rounds_advance; round++)); do
        cp held.0 held
        start advance held 8 "${T[8]}" growth.0.8
        random_moment "$usual"
        pause "$moment"
        finish advance
        words=(advance held 8) status=killed answer=$(<printed) aside=$(<complained)
        if cmp -s held held.8; then
            new=$((new + 1))
        else
            same held held.0
            old=$((old + 1))
            [ -z "$answer" ] || fail 'no answer before the held file is safe'
            expect 0 'accepted: 0 to 8, after 1 hop' advance held 8 "${T[8]}" growth.0.8
        fi
        expect 0 'accepted: 8 to 12, after 1 hop' advance held 12 "${T[12]}" growth.8.12
        same held held.12
        gone held.saving
    done
}

# Whatever was ended, the van goes on sealing, closes, and the log is accepted: all that was answered, in order.
cut_seals() {
    local round moment usual at
    usual_time in_background seal log --key key --type 2 door.1
    for ((round = 0; round < rounds_seal; round++)); do
        rm -f log
        cp "$rules/key.0" key
        : >sealed
        for at in 1 2 3 4 5 6; do
            if [ $((at % 3)) -eq $((round % 3)) ]; then seal_and_end "door.$at"; else seal_on "door.$at"; fi
        done
        capture seal-close log --key key
        [[ $status == 0 && $answer == *', closed'$'\n' ]] || fail 'the log to be closed'
        judge_seals
    done
}

seal_and_end() { # DATA
    start seal log --key key --type 2 "$1"
    random_moment "$usual"
    pause "$moment"
    finish seal
    # with an answer it must be in the log; without one it may be
    [ -s printed ] && echo "must $1" >>sealed || echo "may $1" >>sealed
}

seal_on() { # DATA
    capture seal log --key key --type 2 "$1"
    [[ $status == 0 && $answer == 'entry '*', type 2, '*' bytes of data'$'\n' ]] || fail 'sealing to go on'
    echo "must $1" >>sealed
}

judge_seals() {
    local fault
    words=(seal-close log --key key)
    fault=$(python "$day/ends.py" seal log sealed 2>&1) || fail "$fault"
    cmp -s key <(head -c 32 /dev/zero) || fail 'a key of zeros'
    capture seal-check log --first-key "$rules/key.0"
    [[ $status == 0 && $answer == "accepted: $fault entries, closed"$'\n' ]] || fail "accepted: $fault entries, closed"
}

# A store that was being grown has the old room or the new one, and grows again.
cut_grows() {
    local round moment usual room
    expect 0 'log 7, room 16' init grown.lot --log 7 --room 16
    capture append grown.lot --lines lots.txt
    cp grown.lot small.lot
    usual_time in_background grow grown.lot --room 4000
    for ((round = 0; round < rounds_grow; round++)); do
        cp small.lot grown.lot
        start grow grown.lot --room 4000
        random_moment "$usual"
        pause "$moment"
        finish grow
        words=(grow grown.lot --room 4000) status=killed answer=$(<printed) aside=$(<complained)
        room=16
        [ "$(stat -c %s grown.lot)" = "$(stat -c %s small.lot)" ] || room=4000
        store_is grown.lot 12 "$room"
        expect 0 'sound 12' audit grown.lot
        expect 0 'log 7, room 4000, count 12' grow grown.lot --room 4000
        gone grown.lot.growing
        expect 0 "13 ${T[13]} entry.1" append grown.lot entry.1
    done
}

# --- the bar ---------------------------------------------------------------------------------------------------

# An append of over a second draws a bar on a terminal, and clears it; elsewhere nothing is drawn.
drawn_bar() {
    local lines=$((rate * 2))
    until long_enough && on_terminal answers; do lines=$((lines * 2)); done
    same answers plain
    # where the answers are on the terminal as well, the bar spoils none of them
    on_terminal - >screen || true
    same screen plain
    rm plain.lot bar.lot
}

# Whether an append of so many lines takes well over a second; without a terminal nothing is drawn.
long_enough() {
    local began
    seq -f 'lot %.0f of a long day' "$lines" >long.txt
    rm -f plain.lot
    expect 0 "log 7, room $lines" init plain.lot --log 7 --room "$lines"
    now; began=$microseconds
    capture append plain.lot --lines long.txt
    now
    [[ $status == 0 && -z $aside ]] || fail 'status 0 and nothing on standard error'
    printf '%s' "$answer" >plain
    [ $((microseconds - began)) -gt 1500000 ]
}

# The same append on a terminal; not so if it was too quick for a bar.
on_terminal() { # ANSWERS
    rm -f bar.lot
    capture init bar.lot --log 7 --room "$lines"
    status=0
    python "$day/terminal.py" "$1" "${emulator[@]}" "$lot" append bar.lot --lines long.txt 2>fault || status=$?
    words=(append bar.lot --lines long.txt 'on a terminal') answer='' aside=$(<fault)
    [ "$status" -ne 4 ] || return 1
    [ "$status" -eq 0 ] || fail 'a bar that is drawn and cleared'
    same bar.lot plain.lot
}
