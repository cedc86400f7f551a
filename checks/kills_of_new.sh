#!/usr/bin/env bash
# Kills `new` at each of its system calls, in folders that hold different things before it, and looks at what is left:
# no file of the database may be short, a run opens a database of these sizes or none, and `new` again, of these sizes
# or of others, tells `ready` and has made a database of its sizes, or refuses clearly. Prints a table of counts, and
# 'N kills, M wrong'. It needs strace. The words are the states before it that are tried, without words all. FACE
# names another program than the one that bin/face runs.
. "$(dirname "$(readlink -f "$0")")/on_files/helpers.bash"
if ! command -v strace >/dev/null 2>&1 || ! strace -o /dev/null true 2>/dev/null; then
    echo 'skipped: kills of new: need strace'
    exit 0
fi
# The log is written in two pieces of 65,536 octets, and one of them is a whole log of the other sizes.
new=(new 16 8 253)
other=(new 16 8 125)
log=131072
flash=271360
disk=65536
kills=0
wrong=0

# The states before `new`: nothing; some of the files, blank; what an earlier `new` left, drafts or a log with both of
# its names; a log that was used, and no disk.
state_empty() { :; }
state_log_there() { truncate -s "$log" face.log; }
state_log_missing() { truncate -s "$flash" face.flash && truncate -s "$disk" face.disk; }
state_all_there() { state_log_there && state_log_missing; }
state_drafts_left() {
    head -c 65536 /dev/zero >face.log.new
    head -c 20 /dev/urandom >face.flash.new
    head -c "$disk" /dev/zero >face.disk.new
}
state_link_left() { state_log_there && ln face.log face.log.new; }
state_log_used() {
    state_all_there
    printf 'set 5 0a0b\n' | "$face" run 1 >/dev/null
    rm face.disk
}

# the length of a file, or none
length() {
    stat -c %s "$1" 2>/dev/null || echo none
}

# whether each file is missing or has its length
whole() {
    local file wanted
    for file in log:$log flash:$flash disk:$disk; do
        wanted=${file#*:}
        case $(length "face.${file%:*}") in none | "$wanted") ;; *) return 1 ;; esac
    done
}

# what a run finds: the CAP of a blank database of 16 pages, none, or something else
opens() {
    local told
    told=$(printf 'stat\nget 511\nget 512\n' | "$face" run 1 2>/dev/null | tr '\n' /)
    case $told in
    'open 0/stat commits 0 used 0 owed 0 cap '*' active 0/none/refused record/') told=${told#*cap } && echo "${told%% *}" ;;
    'fault foreign/') echo none ;;
    *) echo "something else" ;;
    esac
}

# what `new` tells: ready, refused, or something else
asked() {
    local told
    told=$("$face" "$@" </dev/null 2>/dev/null)
    case "$? $told" in
    '0 ready '*) echo ready ;;
    '9 fault foreign' | '10 fault notblank '*) echo refused ;;
    *) echo "something else" ;;
    esac
}

# wrong STATE CALL NUMBER WHAT
report() {
    echo "  wrong: $1, killed at $2 number $3: $4"
    wrong=$((wrong + 1))
}

# kill_at STATE CALL NUMBER: counts in found, shut, ready and refused what comes of it
kill_at() {
    local state=$1 first again second
    rm -rf "$folder"/db*
    mkdir "$folder/db" && cd "$folder/db" || exit 1
    "state_$state"
    { strace -f -o /dev/null -e "inject=$2:signal=KILL:when=$3" "$face" "${new[@]}" >/dev/null </dev/null; } 2>/dev/null
    whole || report "$@" 'a file is short'
    [ "$state" != log_used ] || [ ! -e face.disk ] || report "$@" 'a refused new has made a file'
    cp -r . "$folder/db-run"
    cp -r . "$folder/db-other"

    cd "$folder/db-run" || exit 1
    first=$(opens)
    case $state:$first in
    *:none) shut=$((shut + 1)) ;;
    log_used:*) report "$@" "a run opens $first" ;;
    *:252) found=$((found + 1)) ;;
    *) report "$@" "a run opens $first" ;;
    esac

    cd "$folder/db-other" || exit 1
    again=$(asked "${other[@]}")
    second=$(opens)
    case $again:$second in
    ready:124 | refused:none | refused:252) ;;
    *) report "$@" "new of other sizes $again, a run opens $second" ;;
    esac

    cd "$folder/db" || exit 1
    again=$(asked "${new[@]}")
    second=$(opens)
    case $state:$again:$second in
    *:refused:none) refused=$((refused + 1)) ;;
    log_used:*) report "$@" "new again $again, a run opens $second" ;;
    *:ready:252) ready=$((ready + 1)) ;;
    *) report "$@" "new again $again, a run opens $second" ;;
    esac
    whole || report "$@" 'a file is short after new again'
    [ "$again" != ready ] || [ -z "$(find . -name '*.new')" ] || report "$@" 'new again has left a draft'
}

line='%-12s %6s %10s %12s %11s %13s %6s\n'
# shellcheck disable=SC2059
printf "$line" state kills 'run opens' 'run refuses' 'new: ready' 'new: refused' wrong
[ $# -gt 0 ] || set -- empty log_there log_missing all_there drafts_left link_left log_used
for state in "$@"; do
    rm -rf "$folder"/db*
    mkdir "$folder/db" && cd "$folder/db" || exit 1
    "state_$state"
    strace -f -o "$folder/trace" "$face" "${new[@]}" >/dev/null 2>&1 </dev/null
    calls=$(sed 's/^[0-9]* *//; /^[a-z0-9_]*(/!d; s/(.*//' "$folder/trace" | grep -v -x execve | sort | uniq -c)
    tried=0 found=0 shut=0 ready=0 refused=0 before=$wrong
    while read -r count call; do
        for ((number = 1; number <= count; number++)); do
            kill_at "$state" "$call" "$number"
            tried=$((tried + 1))
        done
    done <<<"$calls"
    kills=$((kills + tried))
    # shellcheck disable=SC2059
    printf "$line" "$state" "$tried" "$found" "$shut" "$ready" "$refused" $((wrong - before))
done
echo "$kills kills, $wrong wrong"
[ "$wrong" -eq 0 ]
