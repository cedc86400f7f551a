#!/usr/bin/env bash
# Want of memory, and a limit on the size of files.
. "$(dirname "$(readlink -f "$0")")/helpers.bash"

# --- want of memory: the first allocations are those of the words, and each has its line and its status
if has cc && cc -shared -fPIC -o "$folder/lack.so" "$root/checks/lack_memory.c" -ldl 2>/dev/null; then
    fresh
    for number in 1 2 3 4 5 6 7 8 9 10 15 20 30; do
        prefix=(env "LD_PRELOAD=$folder/lack.so" "LACK_MEMORY=$number")
        told "want of memory at allocation $number of a run" 4 'fault memory' 'get 5/' run 1
    done
    rm face.*
    for number in 1 2 3 4 5 6; do
        prefix=(env "LD_PRELOAD=$folder/lack.so" "LACK_MEMORY=$number")
        told "want of memory at allocation $number of a new" 4 'fault memory' '' new 16 8 64
    done
    prefix=()
    [ -z "$(ls -A)" ]
    verdict 'no file was made without memory for the words' $?
else
    skip 'want of memory: needs cc'
fi

# --- a limit on the size of files: the signal ends the program, and what was committed stays
fresh
printf 'set 5 0a0b\n' | "$face" run 1 >/dev/null
(
    ulimit -f 1
    ulimit -c 0
    printf 'set 5 ff\n' | "$face" run 1
) >replies 2>/dev/null
[ $? -eq 153 ] && [ ! -s replies ]
verdict 'a limit on the size of files ends the program by its signal' $?
(
    trap '' XFSZ
    ulimit -f 1
    printf 'set 5 ff\n' | "$face" run 1
) >replies 2>/dev/null
[ $? -eq 3 ] && [ "$(cat replies)" = 'fault flash' ]
verdict 'where the signal is ignored it is status 3' $?
told 'nothing is lost by that' 0 'open 1/value 0a0b' 'get 5/' run 1

finish
