#!/usr/bin/env bash
# A simulation of a trace on standard input: what is told, and what standard error says where it takes long.
. "$(dirname "$(readlink -f "$0")")/helpers.bash"

mkdir "$folder/none"
cd "$folder/none" || exit 1

# --- what is told
report='fifo touches 2 pool 1 flash 0 disk 1 staged 0 pushed 0
group touches 2 pool 1 flash 0 disk 1 staged 0 pushed 0
chance touches 2 pool 1 flash 0 disk 1 staged 0 pushed 0'
told 'two touches' 0 "$report" 'r 0/r 0/' simulate 8 1
told 'a line that is no touch' 16 'fault trace 2' 'r 0/x 0/' simulate 8 1

# --- a trace of the largest length, and one line more
yes 'r 0' | head -n 1000000 >longest
out=$("$face" simulate 8 1 2>/dev/null <longest)
[ $? -eq 0 ] && [ "$(printf '%s\n' "$out" | grep -c ' touches 1000000 pool 999999 flash 0 disk 1 staged 0 pushed 0$')" -eq 3 ]
verdict 'a trace of the largest length' $?
out=$(echo 'r 0' | cat longest - | "$face" simulate 8 1 2>/dev/null)
[ $? -eq 16 ] && [ "$out" = 'fault trace 1000001' ]
verdict 'a trace with one line more' $?

# --- how far it has come: nothing is said in the first two seconds, and standard output is the same
out=$(printf 'r 0\nr 0\n' | "$face" simulate 8 1 2>errors)
[ $? -eq 0 ] && [ "$out" = "$report" ] && [ ! -s errors ]
verdict 'a short simulation says nothing' $?
out=$({
    printf 'r 0\n'
    sleep 2.2
    printf 'r 0\n'
} | "$face" simulate 8 1 2>errors)
[ $? -eq 0 ] && [ "$out" = "$report" ] && grep -q -x 'trace: [12] lines are heard' errors
verdict 'a long one says how far it has come' $?
out=$({
    printf 'r 0\n'
    sleep 2.2
    printf 'r 0\n'
} | "$face" simulate 8 1 2>&-)
[ $? -eq 0 ] && [ "$out" = "$report" ]
verdict 'and goes on where standard error is closed' $?
out=$({
    printf 'stop 7 0\n'
    sleep 2.2
    printf 'stop 7 0\n'
} | "$face" trial 16 8 64 1 2>&1 >/dev/null)
[ -z "$out" ]
verdict 'a trial says nothing of that' $?

rm -f longest errors
[ -z "$(ls -A)" ]
verdict 'no file was made' $?
finish
