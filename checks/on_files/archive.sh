#!/usr/bin/env bash
# `archive`: the log's blocks as text, from a number on; what isn't there any more, or not yet; files that it can't use.
. "$(dirname "$(readlink -f "$0")")/helpers.bash"

# --- a log of one block
fresh
told 'a new database' 0 'end 0' '' archive 0
told 'its next block' 12 'ahead 0' '' archive 1
told 'a set' 0 'open 0/committed 1' 'set 5 0a0b/' run 1
sums=$(sha256sum face.*)
block=$("$face" archive 0 2>/dev/null </dev/null | head -n 1)
[ "${block:0:8}" = 'block 0 ' ] && [ "${#block}" -eq 1014 ] && [ "${block:8:4}" = 002e ]
verdict 'the first block' $?
told 'it and the next number' 0 "$block/end 1" '' archive 0
told 'nothing but the next number' 0 'end 1' '' archive 1
told 'behind it' 12 'ahead 1' '' archive 2
[ "$sums" = "$(sha256sum face.*)" ]
verdict 'the files are as they were' $?

# --- a ring that has turned over
seq 0 99 | awk '{ print "set", $1, "aa" }' | "$face" run 4 >/dev/null
told 'a block that was written over' 12 'gone 38' '' archive 0
"$face" archive 38 >"$folder/all" 2>/dev/null </dev/null
[ "$(grep -c '^block [0-9]* [0-9a-f]\{1006\}$' "$folder/all")" -eq 63 ] && [ "$(tail -n 1 "$folder/all")" = 'end 101' ]
verdict 'all blocks of the ring' $?
"$face" archive 60 2>/dev/null </dev/null | cmp -s - <(sed -n '23,$p' "$folder/all")
verdict 'the last of them' $?
told 'words that are wrong' 2 'fault words' '' archive 18446744073709551616
told 'the largest number' 12 'ahead 101' '' archive 18446744073709551615

# --- what was told, read again; no file is opened
mkdir "$folder/none"
told 'an archive that begins behind block 0' 13 'fault stream 1' "$(head -n 1 "$folder/all")/" verify 16
cd "$folder/none" || exit 1
told 'an archive' 0 'verified 1' "$block/end 1/end 1" verify 16
told 'a block twice' 13 'fault stream 3' "$block/end 1/$block/" verify 16
told 'a page that there is not' 13 'fault stream 1' "${block:0:48}ff${block:50}/" verify 16
told 'an octet that changed' 13 'fault stream 1' "${block/0a0b/0a0b01}/" verify 16
printf 'block 0\n' | "$face" verify 16 2>"$folder/said" >/dev/null
[ $? -eq 13 ] && grep -q '^face: that line ' "$folder/said"
verdict 'what is said of it' $?
[ -z "$(ls -A)" ]
verdict 'no file was made' $?
cd "$folder/db" || exit 1

# --- files that it can't use
if has flock; then
    prefix=(flock face.log)
    says 'another program is at work' 9 'face: another program is at work on face.log: .*' archive 0
    prefix=()
else
    skip 'an archive beside another program: needs flock'
fi
printf '\377' | dd of=face.log bs=1 seek=1536 conv=notrunc status=none
told 'a log that has no ring of blocks' 9 'fault foreign' '' archive 0

finish
