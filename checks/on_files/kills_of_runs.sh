#!/usr/bin/env bash
# Runs that are killed in the middle of many sets.
. "$(dirname "$(readlink -f "$0")")/helpers.bash"

# --- killed in the middle of many sets
mkdir "$folder/killed"
cd "$folder/killed" || exit 1
"$face" new 1024 8 400 >/dev/null </dev/null
first=1
for wait in 0.02 0.05 0.1 0.2 0.4 0.15 0.03 0.3; do
    awk -v from="$first" 'BEGIN { for (i = from; i < from + 15000; i++) printf "set %d %08x\n", i % 32768, i }' >sets
    "$face" run 64 <sets >replies &
    pid=$!
    sleep "$wait"
    kill -9 "$pid" 2>/dev/null
    wait "$pid" 2>/dev/null
    # the last reply that was wholly written
    last=$(grep -c '' replies >/dev/null; awk '/^committed [0-9]+$/ { n = $2 } END { print n + 0 }' replies)
    [ "$(tail -c 1 replies | od -An -c | tr -d ' ')" = '\n' ] || last=$((last > 0 ? last - 1 : 0))
    [ "$last" -eq 0 ] && last=$((first - 1))
    open=$(printf '' | "$face" run 64 | sed -n 's/^open \([0-9]*\)$/\1/p')
    [ -n "$open" ] && [ "$open" -ge "$last" ] && [ "$open" -le $((last + 1)) ]
    verdict "killed after $wait s: $last replies written, open ${open:-none}" $?
    if [ -n "$open" ] && [ "$open" -ge 1 ]; then
        value=$(printf 'get %d\n' $((open % 32768)) | "$face" run 64 | sed -n 2p)
        [ "$value" = "value $(printf '%08x' "$open")" ]
        verdict "the last commit after $wait s has its value" $?
        first=$((open + 1))
    fi
done
# (the table has 32,768 records, and later sets write over earlier ones)
from=$((first > 32768 ? first - 32768 : 1))
all=$(awk -v from="$from" -v to="$((first - 1))" 'BEGIN { for (i = from; i <= to; i++) printf "get %d\n", i % 32768 }' | "$face" run 64 | sed 1d |
    awk -v from="$from" '{ if ($0 != sprintf("value %08x", from + NR - 1)) bad++ } END { print NR, bad + 0 }')
[ "$all" = "$((first - from)) 0" ]
verdict "the last $((first - from)) commits hold their values" $?

finish
