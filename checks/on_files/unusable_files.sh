#!/usr/bin/env bash
# Files that can't be used, and a full disk.
. "$(dirname "$(readlink -f "$0")")/helpers.bash"

# --- files that can't be used
fresh
printf 'set 5 0a0b\n' | "$face" run 1 >/dev/null
for file in face.log face.flash face.disk; do
    mv "$file" kept
    told "$file isn't there" 9 'fault foreign' 'get 5/' run 1
    mkdir "$file"
    told "$file is a folder" 9 'fault foreign' 'get 5/' run 1
    rmdir "$file"
    head -c 1000 kept >"$file"
    told "$file is too short" 9 'fault foreign' 'get 5/' run 1
    cp kept "$file"
    printf 'x' >>"$file"
    told "$file is too long" 9 'fault foreign' 'get 5/' run 1
    mv kept "$file"
done
if [ "$(id -u)" -eq 0 ] && has setpriv; then
    prefix=(setpriv --reuid 65534 --regid 65534 --clear-groups)
    chown 65534:65534 . face.*
    for file in face.log face.flash face.disk; do
        chmod 444 "$file"
        told "$file can only be read" 9 'fault foreign' 'get 5/' run 1
        chmod 000 "$file"
        told "$file can't be read" 9 'fault foreign' 'get 5/' run 1
        chmod 644 "$file"
    done
    told 'another user who may' 0 'open 1/value 0a0b' 'get 5/' run 1
    mkdir "$folder/closed"
    chmod 555 "$folder/closed"
    cd "$folder/closed" || exit 1
    told 'new in a folder that is closed' 9 'fault foreign' '' new 16 8 64
    prefix=()
    cd "$folder/db" || exit 1
else
    skip 'files of another user: needs root and setpriv'
fi
told 'nothing was lost by these files' 0 'open 1/value 0a0b' 'get 5/' run 1

# --- a file that becomes too short under a run: what it lacks is a fault
mkfifo input
"$face" run 1 <input >replies 2>/dev/null &
run=$!
exec 3>input
printf 'get 5\n' >&3
awaits value replies
truncate -s 10000 face.disk
printf 'get 511\n' >&3
exec 3>&-
wait "$run"
[ $? -eq 3 ] && [ "$(tr '\n' / <replies)" = 'open 1/value 0a0b/fault disk/' ]
verdict 'a file that becomes too short under a run' $?

# --- a full disk
mkdir "$folder/full"
if [ "$(id -u)" -eq 0 ] && mount -t tmpfs -o size=256k none "$folder/full" 2>/dev/null; then
    cd "$folder/full" || exit 1
    told 'new on a full disk' 9 'fault foreign' '' new 16 8 64
    [ -z "$(ls -A)" ]
    verdict 'where a file could not be filled nothing is left' $?
    cd "$folder" || exit 1
    umount "$folder/full"
else
    skip 'a full disk: needs root and a mount'
fi

finish
