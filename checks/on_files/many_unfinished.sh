#!/usr/bin/env bash
# Logs with very many unfinished transactions: a check, and a restart, take no more than a log of that length may cost.
. "$(dirname "$(readlink -f "$0")")/helpers.bash"

if ! has python3; then
    skip 'many unfinished transactions: needs python3'
    finish
fi

# log HOW BLOCKS makes three files whose log has so many full blocks: all Begins, or transactions of a Begin and an End,
# or, of a few blocks less, all Begins and then an End for each, the first one first; or Begins in so many blocks and an
# Update behind for each.
log() {
    python3 - "$@" <<'EOF'
import struct
import sys

how, blocks, slots, pages = sys.argv[1], int(sys.argv[2]), 2 * int(sys.argv[2]), 1


def block(number, records):
    content = struct.pack('>H', 2 + len(records)) + records
    return b'\xa5' + struct.pack('>Q', number) + content.ljust(503, b'\0')


def ends(txns):
    return b''.join(b'\x05' + struct.pack('>Q', txn) for txn in txns)


begins = [512 * number + 2 + place for number in range(blocks) for place in range(501)]
units = [b'\x01' * 501] * blocks
if how == 'sound':
    units = [b''.join(b'\x01' + ends([512 * number + 2 + 10 * place]) for place in range(50)) for number in range(blocks)]
if how == 'ended':
    few = begins[: 501 * (55 * blocks // 556)]
    units = units[: len(few) // 501] + [ends(few[at : at + 55]) for at in range(0, len(few), 55)]
if how == 'updates':
    updates = [b'\x02' + struct.pack('>QQIBBB', txn, txn, place // 32, place % 32, 0, 0) for place, txn in enumerate(begins)]
    units += [b''.join(updates[at : at + 20]) for at in range(0, len(updates), 20)]
    slots, pages = 2 * (len(units) + len(begins)), len(begins) // 32 + 1
with open('face.log', 'wb') as file:
    file.write(bytes(3 * 512) + b''.join(block(*unit) for unit in enumerate(units)))
    file.truncate(512 * (3 + slots))
open('face.flash', 'wb').truncate(33280 * 8 + 1024 * 5)
open('face.disk', 'wb').truncate(4096 * pages)
EOF
}

# costs WORDS .. leaves in `cost` the milliseconds of a processor that the program takes, at most half a minute
costs() {
    out=$(TIMEFORMAT='%3U'; { time timeout 30 "$face" "$@" >replies 2>/dev/null </dev/null; } 2>&1)
    cost=$((10#${out/./}))
}

# answers WORDS REPLY WHAT judges whether the program tells this over the log, in a time that is bounded by a sound one's
answers() {
    # shellcheck disable=SC2086
    costs $1
    [ "$(cat replies)" = "$2" ] && [ "$cost" -lt "$most" ]
    verdict "$3 in $cost of $most ms" $?
}

cd "$folder" || exit 1
log sound 400
costs check
[ "$(cat replies)" = 'sound records 0 commits 0' ]
verdict 'a check of a sound log' $?
most=$((20 * cost + 500))
log begins 400
answers check 'unsound S9' 'a check of 200,400 unfinished transactions'
answers 'run 4' 'fault foreign' 'a run over them'
log updates 100
answers check 'sound records 0 commits 0' 'a check of 50,100 transactions with an Update each'
answers 'run 4' 'open 0' 'a run that undoes them'

# A check of Begins alone costs at most six times what one costs of a sound log of as many blocks whose transactions are
# open all at once before the first of them ends.
log ended 4000
costs check
[ "$(cat replies)" = 'sound records 0 commits 0' ]
verdict 'a check of 197,895 transactions that end one after the other' $?
most=$((6 * cost))
log begins 4000
answers check 'unsound S9' 'a check of 2,004,000 unfinished transactions'
finish
