#!/usr/bin/env bash
# What other users may do in a folder: what is refused then, and what is said. It needs root and setpriv.
. "$(dirname "$(readlink -f "$0")")/helpers.bash"
if [ "$(id -u)" -ne 0 ] || ! has setpriv; then
    skip 'other users: need root and setpriv'
    finish
fi
as_user=(setpriv --reuid 65534 --regid 65534 --clear-groups)
as_other=(setpriv --reuid 65533 --regid 65533 --clear-groups)

# the programs are those of a user, where nothing else is said
prefix=("${as_user[@]}")

# a folder where everybody may make files, and nobody removes those of others
shared() {
    rm -rf "$folder/shared"
    mkdir "$folder/shared"
    chmod 1777 "$folder/shared"
    cd "$folder/shared" || exit 1
}

# --- a blank file that another user has planted
shared
for mode in 666 600; do
    "${as_other[@]}" truncate -s 65536 face.disk
    chmod "$mode" face.disk
    before=$(stat -c '%n %u %a %s' ./*)
    case $mode in
    666) says 'a blank file of another user' 9 "face: face.disk is another user's, who could read and write .*" new 16 8 64 ;;
    *) says 'one that is closed' 9 "face: face.disk can't be opened to be read and written: Permission denied .*" new 16 8 64 ;;
    esac
    [ "$(stat -c '%n %u %a %s' ./*)" = "$before" ]
    verdict "nothing is made beside it, mode $mode" $?
done
rm face.disk
for file in face.log:34304 face.flash:271360 face.disk:65536; do
    "${as_user[@]}" truncate -s "${file#*:}" "${file%:*}"
done
told 'blank files of its own' 0 'ready 16 8 64' '' new 16 8 64
chown 65533 face.flash
chmod 666 face.flash
says 'one of another user beside two' 9 "face: face.flash is another user's, .*" new 16 8 64
chmod 755 .
chown 65534 face.*
told 'blank files in a folder that takes no more' 0 'ready 16 8 64' '' new 16 8 64

# --- what has the name of a draft
for file in face.log.new face.flash.new face.disk.new; do
    shared
    "${as_other[@]}" touch "$file"
    says "a foreign $file" 9 "face: $file is in the way and can't be removed: Operation not permitted .*" new 16 8 64
    [ "$(ls -A)" = "$file" ]
    verdict "a foreign $file stays, alone" $?
    shared
    "${as_user[@]}" mkdir "$file"
    says "a folder in the place of $file" 9 "face: $file is in the way and can't be removed: Is a directory .*" new 16 8 64
    [ "$(ls -A)" = "$file" ]
    verdict "the folder in the place of $file stays, alone" $?
done

# --- who can read the folder can hold the lock on it
if has flock; then
    shared
    "${as_other[@]}" flock . sleep 30 &
    other=$!
    for _ in $(seq 100); do
        flock -n . true || break
        sleep 0.05
    done
    says 'a folder that another user has locked' 9 'face: another program makes a database in this folder, or holds the lock .*' new 16 8 64
    [ -z "$(ls -A)" ]
    verdict 'nothing is made in it' $?
    kill "$other"
    wait "$other" 2>/dev/null
    mkdir own
    chmod 700 own
    chown 65534 own
    cd own || exit 1
    says 'a folder of its own, under it' 9 'face: this folder has no database: .*' run 1
    told 'new in it' 0 'ready 16 8 64' '' new 16 8 64
else
    skip 'locks of others: need flock'
fi

# --- a check of files that may only be read, and by who may only read them
cd "$folder/shared/own" || exit 1
chmod 755 .
for mode in 400 444; do
    chmod "$mode" face.*
    told "a check of files with mode $mode" 0 'sound records 0 commits 0' '' check
    says "a run over files with mode $mode" 9 "face: face.log can't be opened to be read and written: Permission denied .*" run 1
done
prefix=("${as_other[@]}")
told 'a check by another user who may read' 0 'sound records 0 commits 0' '' check
prefix=("${as_user[@]}")
chmod 000 face.flash
says 'a check of a file that is closed' 11 "face: face.flash can't be opened to be read: Permission denied .*" check
chmod 600 face.*
chmod 311 .
says 'a run in a folder that cannot be read' 9 "face: this folder can't be opened to be read: Permission denied .*" run 1
chmod 700 .
told 'nothing was lost by these' 0 'open 0/none' 'get 5/' run 1

finish
