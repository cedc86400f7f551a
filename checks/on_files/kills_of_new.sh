#!/usr/bin/env bash
# Kills of `new` at each of its system calls, the states before it side by side.
. "$(dirname "$(readlink -f "$0")")/helpers.bash"

states=(empty log_there log_missing all_there drafts_left link_left log_used)
for state in "${states[@]}"; do
    {
        FACE=$face "$root/checks/kills_of_new.sh" "$state" >"$folder/$state"
        echo $? >"$folder/$state.status"
    } &
done
wait
for state in "${states[@]}"; do
    grep -e wrong: -e skipped: "$folder/$state"
    verdict "$(tail -n 1 "$folder/$state") from $state on" "$(cat "$folder/$state.status")"
done

finish
