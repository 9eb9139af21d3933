# The checks on a full disk of 64 kB: disk.sh FOLDER, started by full.sh where a file system can be mounted.
set -euo pipefail
cd "$top"
. host/env.sh
. "$day/expect.sh"
. "$day/full.sh"
. "$rules/figures.sh"
LC_ALL=C
full='No space left on device'

mount -t tmpfs -o size=64k lot "$1"
cd "$1"
full_set
dd if=/dev/zero of=filler bs=4096 status=none 2>/dev/null || true

still complains_like 2 "lot init: new.lot*: $full" init new.lot --log 7 --room 16
still complains_like 2 "lot grow: store.lot*: $full" grow store.lot --room 64
still complains_like 2 "lot prove: new*: $full" prove store.lot 5 -o new
still complains_like 2 "lot prove: proof*: $full" prove store.lot 5 -o proof
still complains_like 2 "lot prove-growth: new*: $full" prove-growth store.lot 5 -o new
still complains_like 2 "lot hold: new*: $full" hold new --log 7
still complains_like 2 "lot advance: held*: $full" advance held 12 "${T[12]}" "$rules/growth.8.12"
still complains_like 2 "lot present: new*: $full" present "$rules/keys.txt" "${listed[0]}" -o new
still complains_like 2 "lot absent: new*: $full" absent "$rules/keys.txt" "${others[9]}" -o new
no_room_to_seal "$full"
# the store's room was reserved when it was made
expect 0 "13 ${T[13]} $rules/entry.1" append store.lot "$rules/entry.1"
rm filler
after_full
