#!/usr/bin/env bash
# bin/backup over real files: a sample of checks/backups, and what it says where it can't go on.
. "$(dirname "$(readlink -f "$0")")/helpers.bash"

if has python3; then
    FACE=$face "$root/checks/backups" 8 2>"$folder/said" >"$folder/out"
    verdict "backups with kills: $(cat "$folder/said")" $?
else
    skip 'backups with kills: needs python3'
fi

# --- a folder of archives
fresh
mkdir "$folder/kept"
export FACE=$face
"$root/bin/backup" "$folder/kept" >"$folder/out" 2>&1
[ $? -eq 0 ] && [ "$(cat "$folder/out")" = 'nothing is new behind block 0' ] && [ -z "$(ls "$folder/kept")" ]
verdict 'nothing to archive' $?
printf 'set 5 0a\n' | "$face" run 1 >/dev/null
"$root/bin/backup" "$folder/kept" >/dev/null && printf 'set 6 0a\n' | "$face" run 1 >/dev/null && "$root/bin/backup" "$folder/kept" >/dev/null
[ $? -eq 0 ] && [ "$(ls "$folder/kept" | tr '\n' ' ')" = '00000001.archive 00000002.archive ' ]
verdict 'two archives' $?
[ "$("$root/bin/backup" --check "$folder/kept")" = 'verified 2' ]
verdict 'they are read' $?
mkdir "$folder/again" && (cd "$folder/again" && "$face" new 16 8 64 >/dev/null && "$root/bin/restore" "$folder/kept" 1) >"$folder/out" 2>&1
[ $? -eq 0 ] && [ "$(tail -n 1 "$folder/out")" = 'restored 1' ] &&
    [ "$(cd "$folder/again" && printf 'get 5\nget 6\n' | "$face" run 1 | tr '\n' ' ')" = 'open 1 value 0a none ' ]
verdict 'the first commit is restored' $?
seq 0 99 | awk '{ print "set", $1, "aa" }' | "$face" run 4 >/dev/null
"$root/bin/backup" "$folder/kept" >/dev/null 2>"$folder/said"
[ $? -eq 12 ] && grep -q 'written over blocks 2 to 38' "$folder/said" && [ "$(ls "$folder/kept" | wc -l)" -eq 2 ]
verdict 'a log that was written over' $?
fresh
"$root/bin/backup" "$folder/kept" >/dev/null 2>"$folder/said"
[ $? -eq 12 ] && grep -q "another database's" "$folder/said"
verdict 'another database' $?
if has flock; then
    flock face.log "$root/bin/backup" "$folder/kept" >/dev/null 2>"$folder/said"
    [ $? -eq 9 ] && grep -q 'no file was made' "$folder/said" && [ "$(ls "$folder/kept" | wc -l)" -eq 2 ]
    verdict 'beside a run' $?
else
    skip 'a backup beside a run: needs flock'
fi

# --- a client that drives the program by a pipe
fresh
mkdir "$folder/served"
printf 'set 5 0a\nbackup\nbegin 0\nwrite 0 7 aa\nset 6 0b\nbackup\nget 6\nget 7\nread 0 7\nbackup\nquit\nset 1 01\n' |
    "$root/bin/serve" 4 "$folder/served" >"$folder/out" 2>/dev/null
[ $? -eq 0 ] && [ "$(tr '\n' ',' <"$folder/out")" = 'open 0,committed 1,backup 0,open 1,ok,ok,committed 2,backup 0,open 2,value 0b,none,refused session,backup 0,open 2,bye,' ]
verdict 'backups between runs for one client' $?
[ "$("$root/bin/backup" --check "$folder/served")" = 'verified 2' ]
verdict 'what they have archived is whole' $?
printf 'get 5\nget 6' | "$root/bin/serve" 4 "$folder/served" >"$folder/out" 2>/dev/null
[ $? -eq 0 ] && [ "$(tr '\n' ',' <"$folder/out")" = 'open 2,value 0a,value 0b,' ]
verdict 'a last line without its end is answered' $?
printf 'not what the files are' >face.log
printf 'get 5\n' | "$root/bin/serve" 4 "$folder/served" >"$folder/out" 2>/dev/null
[ $? -eq 9 ]
verdict "the program's status is told" $?
finish
