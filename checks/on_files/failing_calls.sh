#!/usr/bin/env bash
# Calls that fail, and the calls that are made. It needs strace.
. "$(dirname "$(readlink -f "$0")")/helpers.bash"

# --- failing calls
if has strace && strace -o /dev/null true 2>/dev/null; then
    # fails NAME CALL ERROR WHEN STATUS TEXT INPUT: of the calls on the log. The restart saves a master there first,
    # by three writes and two syncs, behind the sync of the opening.
    fails() {
        fresh
        printf 'set 5 0a0b\n' | "$face" run 1 >/dev/null
        prefix=(strace -f -o /dev/null -P face.log -e "inject=$2:error=$3:when=$4")
        told "$1" "$5" "$6" "$7" run 1
        prefix=()
    }
    fails 'no room for the first write of a set' pwrite64 ENOSPC 4 3 'open 1/fault log' 'set 5 ff/get 5/'
    told 'the set before it holds' 0 'open 1/value 0a0b' 'get 5/' run 1
    fails 'no room for the third write of a set' pwrite64 ENOSPC 6 3 'open 1/fault log' 'set 5 ff/get 5/'
    told 'the set before that one holds' 0 'open 1/value 0a0b' 'get 5/' run 1
    fails 'a write of the second set fails' pwrite64 EIO 7 3 'open 1/committed 2/fault log' 'set 5 ff/set 5 fe/get 5/'
    told 'the first set holds' 0 'open 2/value ff' 'get 5/' run 1
    fails 'the first sync of a set fails' fdatasync EIO 4 3 'open 1/fault log' 'set 5 ff/get 5/'
    fails 'the second sync of a set fails' fdatasync EIO 5 3 'open 1/fault log' 'set 5 ff/get 5/'
    fails 'a read at restart fails' pread64 EIO 1 3 'fault log' 'get 5/'
    fails 'no room for the master of a restart' pwrite64 ENOSPC 1 3 'fault log' 'get 5/'
    told 'it is saved by the next run' 0 'open 1/value 0a0b' 'get 5/' run 1
    fails 'the last sync of a checkpoint fails' fdatasync EIO 5 3 'open 1/fault log' 'checkpoint/get 5/'
    told 'nothing is lost by that' 0 'open 1/value 0a0b' 'get 5/' run 1
    fails 'an interrupted write is tried again' pwrite64 EINTR 1 0 'open 1/committed 2/value ff' 'set 5 ff/get 5/'
    fails 'an interrupted read is tried again' pread64 EINTR 2 0 'open 1/value 0a0b' 'get 5/'
    fails 'an interrupted sync is tried again' fdatasync EINTR 2 0 'open 1/committed 2/value ff' 'set 5 ff/get 5/'
    fails 'a file that cannot be synced at the opening' fdatasync EIO 1 9 'fault foreign' 'get 5/'
    printf 'get 5\n' >input
    out=$(strace -f -o /dev/null -P "$PWD/input" -e inject=read:error=EIO:when=1 "$face" run 1 <input 2>/dev/null)
    [ $? -eq 5 ] && [ "$out" = "$(printf 'open 1\nfault input')" ]
    verdict 'reading the input fails' $?
    out=$(strace -f -o /dev/null -P "$PWD/input" -e inject=read:error=EINTR:when=1 "$face" run 1 <input)
    [ $? -eq 0 ] && [ "$out" = "$(printf 'open 1\nvalue 0a0b')" ]
    verdict 'an interrupted read of the input is tried again' $?
    rm -rf "$folder/made"
    mkdir "$folder/made"
    cd "$folder/made" || exit 1
    prefix=(strace -f -o /dev/null -e inject=write:error=ENOSPC:when=1)
    told 'no room for a new log' 9 'fault foreign' '' new 16 8 64
    prefix=()
    [ -z "$(ls -A)" ]
    verdict 'the log that had no room is gone' $?
    told 'new with room again' 0 'ready 16 8 64' '' new 16 8 64

    # the folder is synced behind each file, and before new tells that it is ready
    for time in first second; do
        strace -f -y -o trace -e trace=openat,link,unlink,fsync,write "$face" new 16 8 64 >/dev/null </dev/null
        synced=$(grep -n "fsync(.*<$PWD>)" trace | tail -n 1 | cut -d: -f 1)
        named=$(grep -n 'link(' trace | tail -n 1 | cut -d: -f 1)
        ready=$(grep -n 'ready 16 8 64' trace | cut -d: -f 1)
        [ -n "$synced" ] && [ "${named:-0}" -lt "$synced" ] && [ "$synced" -lt "$ready" ]
        verdict "the $time new syncs the folder" $?
        rm -f face.flash
    done
    for error in EINVAL EOPNOTSUPP; do
        rm -f face.* trace
        prefix=(strace -f -o /dev/null -P "$PWD" -e "inject=fsync:error=$error")
        told "a folder whose sync is refused by $error" 0 'ready 16 8 64' '' new 16 8 64
    done
    rm -f face.* trace
    prefix=(strace -f -o /dev/null -P "$PWD" -e inject=fsync:error=EIO)
    told 'a folder whose sync fails' 9 'fault foreign' '' new 16 8 64
    prefix=()
    [ -z "$(ls -A)" ]
    verdict 'what was made in it is gone' $?

    # a run syncs the folder before it tells that it is open
    fresh
    strace -f -y -o trace -e trace=fsync,write "$face" run 1 >/dev/null </dev/null
    synced=$(grep -n "fsync(.*<$PWD>)" trace | cut -d: -f 1)
    opened=$(grep -n 'open 0' trace | cut -d: -f 1)
    [ -n "$synced" ] && [ "$synced" -lt "$opened" ]
    verdict 'a run syncs the folder' $?
    for error in EINVAL EOPNOTSUPP; do
        prefix=(strace -f -o /dev/null -P "$PWD" -e "inject=fsync:error=$error")
        told "a run in a folder whose sync is refused by $error" 0 'open 0' '' run 1
    done
    prefix=(strace -f -o /dev/null -P "$PWD" -e inject=fsync:error=EIO)
    told 'a run in a folder whose sync fails' 9 'fault foreign' '' run 1
    told 'a load in it' 9 'fault foreign' '' load 1 1 1
    told 'a check in it' 0 'sound records 0 commits 0' '' check
    prefix=()

    # a file system without links
    rm -f face.* trace
    prefix=(strace -f -o /dev/null -e inject=link:error=EPERM)
    told 'new without links' 0 'ready 16 8 64' '' new 16 8 64
    prefix=()
    [ "$(ls -A | tr '\n' ' ')" = 'face.disk face.flash face.log ' ]
    verdict 'its files have their names' $?

    # locks that aren't there, or are held
    prefix=(strace -f -o /dev/null -e inject=flock:error=ENOLCK)
    told 'new without locks' 0 'ready 16 8 64' '' new 16 8 64
    told 'a run without locks' 0 'open 0/committed 1' 'set 5 0a0b/' run 1
    prefix=(strace -f -o /dev/null -e inject=flock:error=EINTR:when=1)
    told 'a lock that is interrupted' 0 'open 1/value 0a0b' 'get 5/' run 1
    prefix=()

    # wrong words open no file
    opened=''
    for words in '' help --help 'run 0' 'run 01' 'load 1 1' 'new 16 8' 'new 16 8 15' 'run -- 1'; do
        # shellcheck disable=SC2086
        strace -f -o trace -e trace=openat "$face" $words >/dev/null 2>&1 </dev/null
        opened+=$(grep -c '"face\.' trace | grep -v '^0$')
    done
    [ -z "$opened" ]
    verdict 'wrong words open no file' $?
    rm -f trace

    # the calls of one commit
    fresh
    printf 'set 5 0a0b\nset 6 0c\n' | strace -f -o trace -e trace=read,write,pread64,pwrite64,fdatasync,fsync,lseek "$face" run 1 >/dev/null
    calls=$(sed -n '/open 0/,$p' trace | sed 's/^[0-9]* *//; s/(.*"\(open\|committed\).*/ \1/; s/(.*//' | tr '\n' ' ')
    # (the page of both records is read once)
    wanted='write open read pread64 '
    wanted+='pwrite64 pwrite64 fdatasync pwrite64 fdatasync write committed '
    wanted+='pwrite64 pwrite64 fdatasync pwrite64 fdatasync write committed '
    case $calls in "$wanted"*) true ;; *) false ;; esac
    ok=$?
    [ $ok -eq 0 ] || echo "  the calls: $calls"
    verdict 'a commit is two writes, a sync, a write, a sync and the write of its reply' $ok
else
    skip 'failing calls and the calls of a commit: need strace'
fi

finish
