# The helper functions of the day; sourced by `run`, and by `disk.sh` within a file system of its own.
#
# Needs: work (the day's folder), lot (the program in it), emulator, day (the folder of these scripts).
# A check runs the program once, by `capture`, and leaves what came in `status`, `answer` (standard output) and
# `aside` (standard error). Each check tallies in $work/tally what it saw; the last step of the day reads that.

rules=$work/rules       # what the program must answer and leave, by figures.py and damage.py
before=()               # what stands before the program: another user, a limit
piped=                  # set: the streams are pipes, since a limit on files would hold for them too
input=/dev/null         # the program's standard input
part=${part:-}          # the part of the day

python() { "$python3" -SEB "$@"; }

lot() { "${before[@]}" "${emulator[@]}" "$lot" "$@"; }

# --- running ---------------------------------------------------------------------------------------------------

# Runs the program and keeps what came.
capture() { # WORD..
    words=("$@")
    status=0
    if [ -n "$piped" ]; then
        { { lot "$@" <"$input" || status=$?; echo "$status" >"$work/status"; } 2>&3 | cat >"$work/out"; } 3>&1 | cat >"$work/err"
        status=$(<"$work/status")
    else
        lot "$@" <"$input" >"$work/out" 2>"$work/err" || status=$?
    fi
    answer='' aside=''
    IFS= read -rd '' answer <"$work/out" || true
    IFS= read -rd '' aside <"$work/err" || true
    tally
}

# Notes the subcommand with its status, and the numbers of the refusals that were written.
tally() {
    local text=$answer$aside
    printf 'ran %s %s\n' "${words[0]:-none}" "$status" >>"$work/tally"
    while [[ $text =~ refused\ ([0-9]+): ]]; do
        printf 'refused %s\n' "${BASH_REMATCH[1]}" >>"$work/tally"
        text=${text#*"${BASH_REMATCH[0]}"}
    done
}

# Says what was expected and what came, and ends the day; with KEEP_GOING=1 it only counts.
fail() { # EXPECTED
    {
        printf 'FAILED in %s\n  command   lot' "$part"
        printf ' %q' "${words[@]}"
        printf '\n  expected  %s\n  came      status %s\n' "$1" "$status"
        printf '  standard output: %q\n  standard error:  %q\n' "${answer:0:500}" "${aside:0:500}"
        caller_lines
    } >&2
    echo failed >>"$work/failures"
    [ -n "${KEEP_GOING:-}" ] || exit 1
}

# Where in the scripts the check stands.
caller_lines() {
    local at
    for at in "${!BASH_LINENO[@]}"; do
        [ "$at" -lt 2 ] || printf '  from %s, line %s\n' "${BASH_SOURCE[at]##*/}" "${BASH_LINENO[at - 1]}"
    done
}

# --- checks ----------------------------------------------------------------------------------------------------

# Status, standard output and standard error, each of them whole.
judge() { # STATUS OUT ERR
    [[ $status == "$1" && $answer == "$2" && $aside == "$3" ]] ||
        fail "$(printf 'status %s, standard output %q, standard error %q' "$1" "$2" "$3")"
}

# An answer: this line (or lines; none if it is empty) on standard output and nothing on standard error.
expect() { # STATUS LINE WORD..
    capture "${@:3}"
    judge "$1" "${2:+$2$'\n'}" ''
}

# A refusal as an answer, with the meaning that belongs to its number.
refuses() { # STATUS NUMBER PLACE WORD..
    expect "$1" "refused $2: ${meaning[$2]}$3" "${@:4}"
}

# The line that the rules owe: accepted, or a refusal of a proof or of the held file.
expect_verdict() { # LINE WORD..
    local owed=1
    case $1 in
    accepted* | sound*) owed=0 ;;
    'refused '[126]:* | 'refused '18:* | 'refused '19:* | 'refused '2[0123]:*) owed=3 ;;
    esac
    expect "$owed" "$@"
}

# A complaint: this one line on standard error, nothing on standard output.
complains() { # STATUS TEXT WORD..
    capture "${@:3}"
    judge "$1" '' "$2"$'\n'
}

# The answer of compare-stores, with the line that belongs to it on standard error, if one does.
compares() { # STATUS ANSWER ASIDE WORD..
    capture "${@:4}"
    judge "$1" "$2"$'\n' "${3:+lot compare-stores: $3$'\n'}"
}

# A file that can't be read: a complaint with the system's reason; compare-stores has an answer for it besides.
unread() { # NAME REASON WORD..
    case $3 in
    compare-stores) compares 2 unread "$1: $2" "${@:3}" ;;
    *) complains 2 "lot $3: $1: $2" "${@:3}" ;;
    esac
}

# A complaint of one line that fits a pattern, where the words are not settled.
complains_like() { # STATUS PATTERN WORD..
    capture "${@:3}"
    # shellcheck disable=SC2053  # the pattern is one
    [[ $status == "$1" && -z $answer && $aside == $2$'\n' && ${aside%$'\n'} != *$'\n'* ]] ||
        fail "status $1, one line on standard error like $2"
}

# A word that the command can't take: status 2 and a complaint; the usage may follow.
rejects() { # WORD..
    capture "$@"
    [[ $status == 2 && -z $answer && $aside == "lot $1: "?* ]] ||
        fail "status 2, 'lot $1: ..' on standard error, nothing on standard output"
}

# Words or options that are too few, too many or unknown: status 2, a complaint and the usage.
misused() { # WORD..
    capture "$@"
    [[ $status == 2 && -z $answer && $aside == "lot $1: "?*$'\n'"usage: lot $1"* ]] ||
        fail "status 2, 'lot $1: ..' and 'usage: lot $1 ..' on standard error, nothing on standard output"
}

# An answer with one line of its own on standard error.
expect_with() { # STATUS LINE ERROR-PATTERN WORD..
    capture "${@:4}"
    # shellcheck disable=SC2053
    [[ $status == "$1" && $answer == "$2"$'\n' && $aside == $3$'\n' ]] ||
        fail "status $1, $2 on standard output and $3 on standard error"
}

# Bytes on standard output, those of the file, and the line on standard error.
expect_bytes() { # FILE LINE WORD..
    capture "${@:3}"
    [[ $status == 0 && $aside == "$2"$'\n' ]] && cmp -s "$1" "$work/out" ||
        fail "status 0, the bytes of $1 on standard output and $2 on standard error"
}

# Two files are the same, byte for byte.
same() { # FILE FILE
    cmp -s "$1" "$2" || fail "$1 to be byte for byte as ${2#"$work"/}"
}

# None of these files is there.
gone() { # FILE..
    local file
    for file in "$@"; do
        [ ! -e "$file" ] && [ ! -L "$file" ] || fail "no file $file"
    done
}

# A store has these closed records of the day's log, and open ones up to its room.
store_is() { # STORE COUNT ROOM [LINES]
    local fault
    fault=$(python "$day/store.py" "$1" "$2" "$3" "${4:-$rules/lots.txt}" 2>&1) || fail "$1 with $2 of $3 records closed: $fault"
}

# Names, rights and contents of all that is in this folder.
snapshot() {
    find . -printf '%P %y %m %U %s\n' -type f -readable -exec sha256sum {} + | sort
}

# A check after which every file in this folder is as it was, with nothing new beside them.
still() { # CHECK..
    local was
    was=$(snapshot)
    "$@"
    [ "$(snapshot)" = "$was" ] || fail "the folder as it was: $(diff <(echo "$was") <(snapshot) | tr '\n' ';' || true)"
}

# Checks by somebody whom rights hold back, also where the day runs as root.
as_stranger() { # CHECK..
    local -a before=("${stranger[@]}")
    "$@"
}

# Checks with a limit on the length of files, in bytes.
limited() { # BYTES CHECK..
    local -a before=(prlimit "--fsize=$1" --)
    local piped=yes
    "${@:2}"
}

# --- JSON ------------------------------------------------------------------------------------------------------

# The answer as JSON: the fields named are there. They are read later, all at once, by answers.py.
json() { # STATUS FIELDS WORD..
    local got
    capture "${@:3}" --json
    [[ $2 == *'"error"'* ]] && got=$aside || got=$answer
    [ "$status" = "$1" ] || fail "status $1"
    [[ $2 != *'"error"'* || -z $answer ]] || fail 'nothing on standard output'
    printf '%s\0' "${*:3}" "$3" "$1" "$2" "$got" >>"$work/answers"
}

# --- time ------------------------------------------------------------------------------------------------------

# A pipe that nothing is ever written to: waiting on it with a limit is a sleep without a process.
waits() {
    [ -p "$work/never" ] || mkfifo "$work/never"
    exec {never}<>"$work/never"
}

pause() { # MICROSECONDS
    local seconds
    printf -v seconds '%d.%06d' $(($1 / 1000000)) $(($1 % 1000000))
    read -rt "$seconds" -u "$never" || true
}

# Sets `moment` to a random number of microseconds below the one given.
random_moment() { # MICROSECONDS
    moment=$(((RANDOM << 15 | RANDOM) % ($1 > 0 ? $1 : 1)))
}

now() { microseconds=${EPOCHREALTIME/./}; }

# Says how a part went.
say() { # TEXT..
    printf '%-9s %s\n' "$part" "$*"
}
