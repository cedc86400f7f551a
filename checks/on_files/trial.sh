#!/usr/bin/env bash
# Lives with power cuts between them, over devices in memory. What is told was worked out by another program.
. "$(dirname "$(readlink -f "$0")")/helpers.bash"

# cut CHANGES STATUS TEXT FOUND: the power of a set goes off behind so many changes. Its life tells this text and this
# status, and the next life finds it done (+) or not (-) by the seeds 0, 1, 2 and 77.
cut() {
    local place=0 seed next
    for seed in 0 1 2 77; do
        next='open 0/none'
        [ "${4:place:1}" = + ] && next='open 1/value 0a0b'
        told "a set is cut off behind change $1, seed $seed" 0 "$3life 1 status $2/$next/life 2 status 0" \
            "set 5 0a0b/stop $1 $seed/get 5/" trial 16 8 64 1
        place=$((place + 1))
    done
}

# --- a set at each of its changes
mkdir "$folder/none"
cd "$folder/none" || exit 1
cut 0 3 '' ----
cut 1 3 '' ----
cut 2 3 '' ----
cut 3 3 '' ----
cut 4 3 '' ----
cut 5 6 '' ----
cut 6 3 'open 0/' ----
cut 7 3 'open 0/' ----
cut 8 3 'open 0/' ----
cut 9 3 'open 0/' +-+-
cut 10 3 'open 0/' +-+-
cut 11 6 'open 0/' ++++
cut 12 0 'open 0/committed 1/' ++++

# --- thirty-one stop lines end a life, the next one is a line
stops='' lives=''
for number in {1..31}; do
    stops+='stop 7 0/'
    lives+="open 0/life $number status 0/"
done
told 'one stop line more' 0 "${lives}open 0/refused line/none/life 32 status 0" "${stops}stop 7 0/get 5/" trial 16 8 64 1

# --- a life without a stop line may ask for ten thousand changes: six of the restart, and one for each reply
gets=$(printf 'get 0/%.0s' {1..9994})
values=$(printf '/none%.0s' {1..9994})
told 'ten thousand changes' 0 "open 0$values/life 1 status 0" "$gets" trial 16 8 64 1
told 'one change more' 0 "open 0$values/life 1 status 6" "${gets}get 0/" trial 16 8 64 1

# --- the longest script, and one that is too long
told 'the longest script' 0 'open 0/refused line/life 1 status 0' "$(printf '%65536s' '')" trial 16 8 64 1
told 'a script that is too long' 7 'fault limit' "$(printf '%65537s' '')" trial 16 8 64 1

# --- streams
"$face" trial 16 8 64 1 >/dev/full 2>/dev/null </dev/null
verdict 'an output that is full' $(($? != 6))
out=$("$face" trial 16 8 64 1 2>/dev/null <.)
[ $? -eq 5 ] && [ "$out" = 'fault input' ]
verdict 'an input that is a folder' $?

[ -z "$(ls -A)" ]
verdict 'no file was made' $?
finish
