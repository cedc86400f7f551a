#!/usr/bin/env bash
# Refuses memory to the program over files, at each allocation of a run, a load, a `new`, a trial, a check and a
# simulation in turn: that one alone, and that one with all behind it. What is told must be a front of the text of the
# run that lacks nothing, and then the line of its fault or nothing, with status 4; or all of that text with its status,
# where the work goes on. The next run must open sound files within range: with each commit that was told, and at most
# the one that would have been told next; behind a `new`, blank files or none, of which `new` makes a database again.
# Tells how many refusals were tried, and 'N tried, M wrong'. It needs cc. The words are the commands that are tried,
# without words all. FACE names another program than the one that bin/face runs.
. "$(dirname "$(readlink -f "$0")")/on_files/helpers.bash"
if ! cc -shared -fPIC -o "$folder/lack.so" "$root/checks/lack_memory.c" -ldl; then
    echo 'skipped: refused allocations: lack_memory.c could not be built'
    exit 0
fi
tried=0
wrong=0

# Files with six commits, two sessions to undo, and pages in a full queue.
mkdir "$folder/before" "$folder/empty"
cd "$folder/before" || exit 1
"$face" new 16 8 16 >/dev/null </dev/null
"$face" run 1 >/dev/null <<'EOF'
set 0 01
set 32 02
set 64 03
set 96 04
set 128 05
begin 0
write 0 0 aa
write 0 32 bb
begin 1
write 1 160 cc
set 192 06
EOF

lines='get 0
begin 0
scan 0 31 2
write 0 160 07
begin 1
read 1 64
write 1 65 08
erase 1 128
commit 1
set 224 09
abort 0
set 256 0a
checkpoint
cache
set 288 0b
begin 2
write 2 320 0c
set 1 0d
stat'
trial_lines='set 0 01
set 32 02
set 64 03
stop 40 2
begin 0
write 0 0 04
scan 0 0 64
stop 1000 0
cache'
trace_lines=$(for page in {0..15} {0..4}; do printf 'w %d\nr 0\n' "$page"; done)

# The words of a command, its input, and the files that it begins with.
command_run() { words=(run 1) input=$lines files=before; }
command_wide_run() { words=(run 64) input=$lines files=before; }
command_load() { words=(load 12 5 2) input='' files=before; }
command_new() { words=(new 16 8 16) input='' files=empty; }
command_trial() { words=(trial 16 8 16 1) input=$trial_lines files=empty; }
command_check() { words=(check) input='' files=before; }
command_simulate() { words=(simulate 8 2) input=$trace_lines files=empty; }

# plays the command with what these words set; its status in status, what it told in told, with slashes for newlines
play() {
    rm -rf "$folder"/db*
    cp -r "$folder/$files" "$folder/db"
    cd "$folder/db" || exit 1
    printf '%s\n' "$input" | env "$@" "$face" "${words[@]}" >"$folder/told" 2>/dev/null
    status=$?
    told=$(tr '\n' / <"$folder/told")
}

# the lines that were told, whole, and the range of commits behind them, from least to most
range() {
    local front=${told%fault memory/} rest commits
    front=${front%"${front##*/}"}
    rest=${whole#"$front"}
    commits=$(grep -o 'committed [0-9]*/' <<<"$front" | grep -c .)
    least=$((6 + commits)) most=$((6 + commits))
    case ${words[0]}:$rest in
    run:committed*) most=$((most + 1)) ;;
    load:load*) most=18 ;;
    load:) least=18 most=18 ;;
    esac
    return 0
}

# whether what was told is lawful
is_lawful() {
    [ "$status:$told" = "$whole_status:$whole" ] && return
    [ "$status" -eq 4 ] && [[ $whole == "${told%fault memory/}"* ]]
}

# whether the next run finds what it may, on sound files
is_found() {
    local next verdict commits
    case ${words[0]} in
    trial | simulate)
        [ -z "$(ls -A)" ]
        return
        ;;
    new)
        cp -r . "$folder/db-again"
        [ "$(cd "$folder/db-again" && "$face" new 16 8 16 2>/dev/null </dev/null)" = 'ready 16 8 16' ] || return
        ;;
    esac
    verdict=$("$face" check 2>/dev/null </dev/null)
    next=$("$face" run 1 2>/dev/null </dev/null | tr '\n' /)
    commits=${next#open }
    commits=${commits%/}
    case ${words[0]}:$verdict:$next in
    new:sound*:open\ 0/ | new:unsound*:fault\ foreign/ | check:sound*:open\ 6/) return ;;
    run:sound*:open* | load:sound*:open*) range && [ "$commits" -ge "$least" ] && [ "$commits" -le "$most" ] ;;
    *) return 1 ;;
    esac
}

# refuse NAME NUMBER HOW: one refusal; fails where none is met
refuse() {
    rm -f "$folder/mark"
    play "LD_PRELOAD=$folder/lack.so" "LACK_MARK=$folder/mark" "$3=$2"
    [ -e "$folder/mark" ] || return
    tried=$((tried + 1))
    [ "$status:$told" != "$whole_status:$whole" ] || gone_on=$((gone_on + 1))
    is_lawful && is_found && return
    wrong=$((wrong + 1))
    echo "  wrong: $1, $3=$2: status $status, told $told"
}

[ $# -gt 0 ] || set -- run wide_run load new trial check simulate
for name in "$@"; do
    "command_$name"
    play
    whole=$told whole_status=$status
    gone_on=0 number=1
    while refuse "$name" "$number" LACK_ONE && refuse "$name" "$number" LACK_MEMORY; do
        number=$((number + 1))
    done
    echo "$name: $((number - 1)) allocations, each refused alone and with all behind it; work went on $gone_on times"
done
echo "$tried tried, $wrong wrong"
[ "$wrong" -eq 0 ]
