#!/usr/bin/env bash
# A check of a database: what is told, what standard error says of it, and that it changes no file.
. "$(dirname "$(readlink -f "$0")")/helpers.bash"

# checks NAME STATUS TEXT PATTERN: the check ends with this status after this line, standard error has a line of this
# pattern, or nothing where the pattern is empty, and each file has the octets and the times of changes as before
checks() {
    local name=$1 status=$2 text=$3 pattern=$4 before out got
    before=$(stat -c '%n %s %y' face.* 2>/dev/null; cat face.* 2>/dev/null | cksum)
    out=$("${prefix[@]}" "$face" check 2>"$folder/said" </dev/null)
    got=$?
    [ "$got" -eq "$status" ] && [ "$out" = "$text" ]
    local ok=$?
    [ $ok -eq 0 ] || echo "  $name: status $got, told: $out"
    verdict "$name" $ok
    if [ -n "$pattern" ]; then
        grep -q -x -e "$pattern" "$folder/said"
    else
        [ ! -s "$folder/said" ]
    fi
    verdict "$name: what is said" $?
    [ "$before" = "$(stat -c '%n %s %y' face.* 2>/dev/null; cat face.* 2>/dev/null | cksum)" ]
    verdict "$name: no file is changed" $?
}

# poke FILE PLACE OCTET: puts the octet, in octal, at this place
poke() {
    printf "\\$3" | dd of="$1" bs=1 seek="$2" conv=notrunc status=none
}

# --- no files
mkdir "$folder/none"
cd "$folder/none" || exit 1
checks 'a folder without files' 11 'unsound S1' 'face: this folder has no database: .*'
[ -z "$(ls -A)" ]
verdict 'no file was made' $?

# --- sound devices, and what isn't sound
mkdir "$folder/db"
cd "$folder/db" || exit 1
told 'a new database' 0 'ready 1 8 16' '' new 1 8 16
checks 'a new database is sound' 0 'sound records 0 commits 0' ''
poke face.disk 10 001
checks 'a page that is none' 11 'unsound S1' 'face: rule 1 fails at page 0: .*'
poke face.disk 10 000
told 'a commit' 0 'open 0/committed 1' 'set 5 0a0b/' run 1
checks 'a commit is sound' 0 'sound records 1 commits 1' ''
cp face.log kept
poke face.log 1590 002
checks 'another number of a commit' 11 'unsound S11' 'face: rule 11 fails in the log: .*'
before=$(cat face.* | cksum)
says 'a run over it' 9 'face: rule 11 fails in the log: .*' run 1
[ "$(cat "$folder/out")" = 'fault foreign' ] && [ "$before" = "$(cat face.* | cksum)" ]
verdict 'a run over it opens nothing and changes nothing' $?
mv kept face.log
told 'another commit' 0 'open 1/committed 2/committed 3' 'set 5 -/set 6 0c/' run 1
checks 'three commits on two numbers' 0 'sound records 2 commits 3' ''
told 'a run finds them' 0 'open 3/value -/value 0c' 'get 5/get 6/' run 1

# --- files that can't be used
for file in face.log face.flash face.disk; do
    mv "$file" kept
    checks "$file is missing" 11 'unsound S1' "face: $file is missing beside the others: .*"
    head -c 1000 kept >"$file"
    checks "$file is too short" 11 'unsound S1' "face: $file has 1000 octets, as in no database: .*"
    mv kept "$file"
done
mv face.log kept
mkfifo face.log
out=$(timeout 5 "$face" check 2>"$folder/said" </dev/null)
[ $? -eq 11 ] && [ "$out" = 'unsound S1' ] && grep -q '^face: face.log is no file, but a folder or something else: ' "$folder/said"
verdict 'a pipe in the place of a file' $?
mv kept face.log
if has flock; then
    prefix=(flock face.disk)
    checks 'another program is at work on a file of three' 11 'unsound S1' 'face: another program is at work on face.disk: .*'
    prefix=(flock -s face.log)
    checks 'another check reads' 0 'sound records 2 commits 3' ''
    told 'a run beside it' 9 'fault foreign' '' run 1
    prefix=()
else
    skip 'locks of others: need flock'
fi

# --- a disk that was cut at a page's end: where the log names a page behind it that is found, else it is a smaller one's
mkdir "$folder/cut"
cd "$folder/cut" || exit 1
told 'a database of four pages' 0 'ready 4 8 16' '' new 4 8 16
told 'a record on the first' 0 'open 0/committed 1' 'set 5 aa/' run 1
truncate -s 12288 face.disk
checks 'a disk without its last page' 0 'sound records 1 commits 1' ''
truncate -s 16384 face.disk
told 'a record on the last' 0 'open 1/committed 2' 'set 96 bb/' run 1
truncate -s 12288 face.disk
checks 'a disk without a page that the log names' 11 'unsound S1' 'face: rule 1 fails at block .*'
cd "$folder/db" || exit 1

# --- beside a run: the first line on standard error is promised not to change
mkfifo input
"$face" run 1 <input >replies 2>/dev/null &
run=$!
exec 3>input
awaits open replies
checks 'a check beside a run' 11 'unsound S1' 'face: another program is at work on face\.log: wait until it has ended'
[ "$(head -n 1 "$folder/said")" = 'face: another program is at work on face.log: wait until it has ended' ]
verdict 'its first line is the one that is promised' $?
mv face.flash kept
"$face" check >/dev/null 2>"$folder/said" </dev/null
[ "$(head -n 1 "$folder/said")" = 'face: another program is at work on face.log: wait until it has ended' ]
verdict 'it comes first where files are missing too' $?
mv kept face.flash
exec 3>&-
wait "$run"
checks 'a check behind it' 0 'sound records 2 commits 3' ''

# --- a medium that takes no writes
mkdir "$folder/fixed"
if [ "$(id -u)" -eq 0 ] && mount -t tmpfs none "$folder/fixed" 2>/dev/null; then
    cp face.* "$folder/fixed"
    mount -o remount,ro "$folder/fixed"
    cd "$folder/fixed" || exit 1
    checks 'a medium that takes no writes' 0 'sound records 2 commits 3' ''
    told 'a run over it' 9 'fault foreign' '' run 1
    cd "$folder/db" || exit 1
    umount "$folder/fixed"
else
    skip 'a medium that takes no writes: needs root and a mount'
fi

# --- words, and a line that can't be told
told 'a word too many' 2 'fault words' '' check x
"$face" check >/dev/full 2>"$folder/said" </dev/null
[ $? -eq 6 ] && grep -q "^face: standard output couldn't be written: No space left on device (os error 28)$" "$folder/said"
verdict 'an output that is full' $?
out=$("$face" check 2>&- </dev/null)
[ $? -eq 0 ] && [ "$out" = 'sound records 2 commits 3' ]
verdict 'standard error that is closed' $?

# --- a device that fails, and how far a long check has come
if has strace && strace -o /dev/null true 2>/dev/null; then
    for error in EROFS EINVAL EPERM; do
        prefix=(strace -f -o /dev/null -e "inject=fdatasync:error=$error")
        checks "files that cannot be synced by $error" 0 'sound records 2 commits 3' ''
    done
    prefix=(strace -f -o /dev/null -e inject=fdatasync:error=EIO:when=2)
    checks 'a file whose sync fails' 11 'unsound S1' "face: face.flash can't be synced: Input/output error (os error 5); .*"
    prefix=()
    strace -f -o "$folder/trace" -e trace=openat,write,pwrite64,fsync,unlink,link "$face" check >/dev/null </dev/null
    [ "$(grep -c '"face\..*O_RDONLY' "$folder/trace")" -eq 3 ] && [ "$(grep -c -e 'O_RDWR' -e 'write' -e 'link(' -e 'fsync(' "$folder/trace")" -eq 1 ]
    verdict 'it opens to read, and writes one line' $?
    # Of four pages three have no frame on flash, so they are read from the disk.
    mkdir "$folder/wide" && cd "$folder/wide" && "$face" new 4 8 16 >/dev/null && printf 'set 5 0a\nset 6 0b\nset 6 0c\n' | "$face" run 1 >/dev/null
    out=$(strace -f -o /dev/null -P face.disk -e inject=pread64:error=EIO:when=1 "$face" check 2>"$folder/said" </dev/null)
    [ $? -eq 3 ] && [ "$out" = 'fault disk' ] && grep -q "^face: face.disk couldn't be read: Input/output error (os error 5)$" "$folder/said"
    verdict 'a disk that cannot be read' $?
    out=$(strace -f -o /dev/null -P face.disk -e inject=pread64:delay_enter=2200000:when=1 "$face" check 2>"$folder/said" </dev/null)
    [ $? -eq 0 ] && [ "$out" = 'sound records 2 commits 3' ] && grep -q -x 'check: 0 MiB are read; the files have 1 MiB, .*' "$folder/said"
    verdict 'a long check says how far it has come' $?
else
    skip 'a device that fails: needs strace'
fi

finish
