#!/usr/bin/env bash
# A new database that is refused makes nothing, and one that finds blank files makes the missing ones.
. "$(dirname "$(readlink -f "$0")")/helpers.bash"

# --- a new database that is refused makes nothing; where the files that are there are blank the missing ones are made
mkdir "$folder/refused"
cd "$folder/refused" || exit 1
"$face" new 4 8 16 >/dev/null </dev/null
awk 'BEGIN { for (i = 0; i < 128; i++) printf "set %d aa\n", i }' | "$face" run 1 >/dev/null
mv face.disk kept
told 'a run without the disk' 9 'fault foreign' '' run 1
place=$(($(cmp face.log /dev/zero | sed -E 's/.* (byte|char) ([0-9]+),.*/\2/') - 1))
told 'new without the disk' 10 "fault notblank log $place" '' new 4 8 16
told 'new of other sizes without the disk' 9 'fault foreign' '' new 4 8 17
[ "$(ls -A | tr '\n' ' ')" = 'face.flash face.log kept ' ]
verdict 'it has made nothing' $?
told 'a run without the disk once more' 9 'fault foreign' '' run 1
mv kept face.disk
told 'and with it' 0 'open 128/value aa/value aa' 'get 0/get 127/' run 1
for file in face.log face.flash face.disk; do
    fresh
    rm "$file"
    told "new without $file" 0 'ready 16 8 64' '' new 16 8 64
    told "a run after it" 0 'open 0/none' 'get 5/' run 1
done

# --- a file that appears while new works is not written over, and nothing stays beside it
# appears NAME THERE STRACE'S WORDS..: new is stopped behind a call, where this file is there; face.flash appears, and
# another face.log where there is one; then it goes on
appears() {
    local name=$1 there=$2 pid status wanted=1
    shift 2
    rm -rf "$folder/appears"
    mkdir "$folder/appears"
    cd "$folder/appears" || exit 1
    strace -f -o /dev/null "$@" "$face" new 16 8 64 </dev/null >"$folder/told" 2>"$folder/said" &
    pid=$!
    for _ in $(seq 500); do
        [ -s "$there" ] && break
        sleep 0.02
    done
    echo 'of a copy' >face.flash
    if [ -e face.log ]; then
        echo 'of a copy' >kept && mv -f kept face.log
        wanted=2
    fi
    for _ in $(seq 500); do
        kill -CONT $(pgrep -P "$pid") 2>/dev/null
        kill -0 "$pid" 2>/dev/null || break
        sleep 0.02
    done
    wait "$pid"
    status=$?
    [ "$status" -eq 9 ] && [ "$(cat "$folder/told")" = 'fault foreign' ] &&
        grep -q -x 'face: face.flash has appeared while a database was made: .*' "$folder/said"
    verdict "$name: what is told and said" $?
    [ "$(find . -type f | wc -l)" -eq "$wanted" ] && [ "$(cat ./* | sort -u)" = 'of a copy' ]
    verdict "$name: it stays, and nothing else" $?
}
if has strace && strace -o /dev/null true 2>/dev/null && has pgrep; then
    drafted=(-e inject=fsync:signal=STOP:when=3)
    appears 'a file that appears' face.disk.new "${drafted[@]}"
    appears 'two that appear' face.log -e inject=link:signal=STOP:when=1
    appears 'a file that appears, without links' face.disk.new "${drafted[@]}" -e inject=link:error=EPERM
else
    skip 'a file that appears while new works: needs strace and pgrep'
fi

# --- a link that leads nowhere isn't replaced, and nothing is made beside it
mkdir "$folder/linked"
cd "$folder/linked" || exit 1
ln -s nowhere face.disk
told 'new beside a link that leads nowhere' 9 'fault foreign' '' new 16 8 64
[ "$(ls -A)" = face.disk ] && [ -L face.disk ]
verdict 'the link stays, alone' $?

finish
