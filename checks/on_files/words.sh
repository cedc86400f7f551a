#!/usr/bin/env bash
# What is said on standard error, and the rights of the files that are made. What is told and the statuses are those
# of the other scripts.
. "$(dirname "$(readlink -f "$0")")/helpers.bash"

# --- words that are wrong
mkdir "$folder/db"
cd "$folder/db" || exit 1
says 'no words' 2 "face: there are no words, or one of them isn't UTF-8 text"
known='and not new, run, load, simulate, trial, check, archive, verify or restore'
says 'help' 2 "face: word 1 is \"help\", $known" help
says 'a word that ends with a newline' 2 "face: word 1 is \"run\\\\n\", $known" $'run\n'
says 'a flag' 2 "face: word 1 is \"--help\", $known" --help
says 'the usage' 2 'usage: face new PAGES GROUPS BLOCKS .*' --help
[ "$(grep -v -c '^face: ' "$folder/said")" -eq 16 ] && [ "$(cat "$folder/out")" = 'fault words' ]
verdict 'the usage has sixteen lines' $?
says 'a number that is none' 2 'face: word 3 is "10", which is no GROUPS' new 16 10 64
says 'a word that is missing' 2 'face: SEED is missing' load 1
says 'no pool' 2 'face: POOL is missing' run
says 'a restore without its pool' 2 'face: POOL is missing' restore 1
says 'a number of commits that is none' 2 'face: word 2 is "-1", which is no N' restore -1 1
says 'a word too many' 2 'face: word 3 is "2", which is one too many' run 1 2

# --- no database
says 'no file' 9 'face: this folder has no database: .*' run 1
"$face" new 16 8 64 >/dev/null </dev/null
for file in face.log face.flash face.disk; do
    mv "$file" kept
    says "$file is missing" 9 "face: $file is missing beside the others: .*" run 1
    mkdir "$file"
    says "$file is a folder" 9 "face: $file is no file, but a folder or something else: .*" run 1
    says "$file is a folder, and new" 9 "face: $file is no file, but a folder or something else: .*" new 16 8 64
    rmdir "$file"
    head -c 1000 kept >"$file"
    says "$file is too short" 9 "face: $file has 1000 octets, as in no database: .*" run 1
    mv kept "$file"
done
says 'other sizes' 9 'face: face.log has 34304 octets, and these sizes ask for 34816: nothing was made. .*' new 16 8 65
printf 'set 5 0a\n' | "$face" run 1 >/dev/null
says 'a used database' 10 "face: the files aren't blank, and nothing was written over. .*" new 16 8 64
cp face.log kept
printf '\245' | dd of=face.log conv=notrunc status=none
printf '\377' | dd of=face.log bs=1 seek=33 conv=notrunc status=none
says 'unsound contents' 9 "face: what face.log, face.flash and face.disk hold isn't sound, .*" run 1
cp kept face.log
if has flock; then
    prefix=(flock face.log)
    says 'another program is at work' 9 'face: another program is at work on face.log: .*' run 1
    prefix=()
    mkdir "$folder/held"
    cd "$folder/held" || exit 1
    prefix=(flock .)
    says 'another program makes a database' 9 'face: another program makes a database in this folder, or holds the lock on it: .*' new 16 8 64
    prefix=()
    cd "$folder/db" || exit 1
else
    skip 'locks of others: need flock'
fi

# --- failed calls
"$face" run 1 >&- 2>"$folder/said" </dev/null
[ $? -eq 6 ] && grep -q "^face: standard output couldn't be written: Bad file descriptor (os error 9)$" "$folder/said"
verdict 'an output that is closed' $?
"$face" run 1 >/dev/full 2>"$folder/said" </dev/null
[ $? -eq 6 ] && grep -q "^face: standard output couldn't be written: No space left on device (os error 28)$" "$folder/said"
verdict 'an output that is full' $?
"$face" run 1 >/dev/null 2>"$folder/said" <.
[ $? -eq 5 ] && grep -q "^face: standard input couldn't be read: Is a directory (os error 21)$" "$folder/said"
verdict 'an input that is a folder' $?
if has strace && strace -o /dev/null true 2>/dev/null; then
    prefix=(strace -f -o /dev/null -P face.disk -e inject=pread64:error=EIO:when=1)
    printf 'get 40\n' | "${prefix[@]}" "$face" run 1 >"$folder/out" 2>"$folder/said"
    [ $? -eq 3 ] && grep -q "^face: face.disk couldn't be read: Input/output error (os error 5)$" "$folder/said"
    verdict 'a disk that cannot be read' $?
    # each step of making the files; what was made doesn't stay
    mkdir "$folder/none"
    cd "$folder/none" || exit 1
    # unmade NAME WHAT ERROR STRACE'S WORDS..
    unmade() {
        local name=$1 what=$2 error=$3
        shift 3
        prefix=(strace -f -o /dev/null "$@")
        says "$name" 9 "face: $what: $error; .*" new 16 8 64
        prefix=()
        [ -z "$(ls -A)" ]
        verdict "$name: nothing stays" $?
    }
    full='No space left on device (os error 28)'
    broken='Input\/output error (os error 5)'
    unmade 'a draft that cannot be made' "face.flash.new can't be made" "$full" -P face.flash.new -e inject=openat:error=ENOSPC:when=1
    unmade 'no room for a new log' "face.log.new can't be made" "$full" -e inject=write:error=ENOSPC:when=1
    unmade 'no room for a new disk' "face.disk.new can't be made" "$full" -P "$PWD/face.disk.new" -e inject=write:error=ENOSPC:when=1
    unmade 'a draft that cannot be synced' "face.log.new can't be made" "$broken" -P "$PWD/face.log.new" -e inject=fsync:error=EIO:when=1
    unmade 'a draft that gets no name' "face.flash can't be made" "$broken" -e inject=link:error=EIO:when=2
    unmade 'a folder that cannot be opened' "this folder can't be opened to be read" "$full" -P . -e inject=openat:error=ENOSPC:when=1
    unmade 'a folder that cannot be synced' "this folder can't be synced" "$broken" -P "$PWD" -e inject=fsync:error=EIO:when=1
    prefix=()
else
    skip 'words for failing calls: need strace'
fi

# --- nothing depends on standard error, and nothing is said where nothing is wrong
cd "$folder/db" || exit 1
out=$("$face" run 0 2>&- </dev/null)
[ $? -eq 2 ] && [ "$out" = 'fault words' ]
verdict 'standard error that is closed' $?
out=$("$face" run 0 2>/dev/full </dev/null)
[ $? -eq 2 ] && [ "$out" = 'fault words' ]
verdict 'standard error that is full' $?
said=$(printf 'get 5\nquit\n' | "$face" run 1 2>&1 >/dev/null)
[ -z "$said" ]
verdict 'a run without faults says nothing' $?

# --- refused lines, and carriage returns
printf 'get 5\nget 5\r\nget 5\r\nget 99999\n' | "$face" run 1 >"$folder/out" 2>"$folder/said"
[ $? -eq 0 ] && [ "$(sed 1d "$folder/out" | tr '\n' /)" = 'value 0a/refused line/refused line/refused record/' ] &&
    grep -q -x 'face: 3 of the replies refused a line' "$folder/said" &&
    grep -q '^face: line 2 of the input ends with a carriage return, ' "$folder/said"
verdict 'refused lines are counted and a carriage return is named' $?

# --- who may read and write what is made
for mask in 022 000 077 277 777; do
    rm -f face.*
    (umask "$mask" && "$face" new 16 8 64 >/dev/null </dev/null)
    [ "$(stat -c %a face.log face.flash face.disk | sort -u)" = 600 ]
    verdict "files are their owner's alone, umask $mask" $?
done
chmod 640 face.*
printf 'set 5 0a\n' | "$face" run 1 >/dev/null && "$face" new 16 8 64 >/dev/null 2>&1 </dev/null
[ "$(stat -c %a face.log face.flash face.disk | sort -u)" = 640 ]
verdict 'the rights of files that are there stay' $?

finish
