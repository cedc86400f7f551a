#!/usr/bin/env bash
# Two programs on one folder: the second finds no log.
. "$(dirname "$(readlink -f "$0")")/helpers.bash"

# --- two programs on one folder
mkdir "$folder/two"
cd "$folder/two" || exit 1
"$face" new 16 8 64 >/dev/null </dev/null
mkfifo first_input
"$face" run 1 <first_input >first_replies &
first=$!
exec 3>first_input
printf 'set 5 0a\n' >&3
awaits committed first_replies
told 'a second run' 9 'fault foreign' 'set 5 0b/' run 1
told 'a second load' 9 'fault foreign' '' load 10 7 1
told 'new beside a run' 9 'fault foreign' '' new 16 8 64
mkdir "$folder/linked"
ln face.flash face.disk "$folder/linked"
cp face.log "$folder/linked"
cd "$folder/linked" || exit 1
told 'a run over a log of its own, and files of the first' 9 'fault foreign' 'set 5 0b/' run 1
"$face" run 1 2>&1 >/dev/null </dev/null | grep -q -x 'face: another program is at work on face.flash: wait until it has ended'
verdict 'which file that is of is said' $?
cd "$folder/two" || exit 1
printf 'get 5\nset 6 0c\n' >&3
exec 3>&-
wait "$first"
[ $? -eq 0 ] && [ "$(tr '\n' / <first_replies)" = 'open 0/committed 1/value 0a/committed 2/' ]
verdict 'the first goes on' $?
told 'a run after the first' 0 'open 2/value 0a/value 0c' 'get 5/get 6/' run 1
"$face" run 1 <first_input >first_replies &
first=$!
exec 3>first_input
awaits open first_replies
kill -9 "$first"
wait "$first" 2>/dev/null
exec 3>&-
told 'one that is killed leaves no lock' 0 'open 2/value 0a' 'get 5/' run 1
mkdir "$folder/copy"
cp face.* "$folder/copy"
cd "$folder/copy" || exit 1
told 'a copy, made with no run at work' 0 'open 2/value 0a' 'get 5/' run 1

finish
