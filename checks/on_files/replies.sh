#!/usr/bin/env bash
# Replies over more than memory, flash or the log hold.
. "$(dirname "$(readlink -f "$0")")/helpers.bash"

# --- several records at once, and what the page cache holds
fresh
told 'scan' 0 'open 0/committed 1/committed 2/ok/item 2 aa/item 4 -/end 2/ok/ok/busy 1/committed 3/refused record' 'set 2 aa/set 4 -/begin 0/scan 0 0 6/begin 1/write 1 9 01/scan 0 5 8/set 6 bb/scan 0 500 64/' run 1
fresh
told 'cache' 0 'open 0/committed 1/committed 2/frame 0 0 page 0 vd-/pool 1*/end 2' 'set 0 01/set 32 02/cache/' run 1

# --- more pages than memory and the queue on flash hold
mkdir "$folder/pages"
cd "$folder/pages" || exit 1
"$face" new 16 8 64 >/dev/null </dev/null
sets='' committed='open 0' gets='' values='open 16'
for page in 0 1 2 3 4 5 6 7 8 9 10 11 12 13 14 15; do
    sets+="set $((32 * page + page)) 0$(printf %x "$page")/"
    committed+="/committed $((page + 1))"
    gets+="get $((32 * page + page))/"
    values+="/value 0$(printf %x "$page")"
done
told 'sixteen pages through a pool of one' 0 "$committed" "$sets" run 1
[ "$(tr -d '\0' <face.flash | wc -c)" -gt 0 ] && [ "$(tr -d '\0' <face.disk | wc -c)" -gt 0 ]
verdict 'pages went to flash, and from there to the disk' $?
told 'they are read with a pool of one' 0 "$values" "$gets" run 1
told 'and with a pool of them all' 0 "$values" "$gets" run 16

# --- a log of the least size is written over again and again
mkdir "$folder/small"
cd "$folder/small" || exit 1
"$face" new 16 8 16 >/dev/null </dev/null
awk 'BEGIN { for (i = 1; i <= 3000; i++) { printf "set %d %08x\n", i * 7 % 512, i; if (i % 100 == 0) printf "checkpoint\n" } }' >sets
awk 'BEGIN { print "open 0"; for (i = 1; i <= 3000; i++) { print "committed " i; if (i % 100 == 0) print "checkpoint" } }' >wanted
"$face" run 4 <sets >replies
[ $? -eq 0 ] && cmp -s replies wanted
verdict 'three thousand sets in a log of 16 blocks' $?
told 'the last of them' 0 'open 3000/value 00000bb8' 'get 8/' run 1

finish
