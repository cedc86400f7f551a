#!/usr/bin/env bash
# Standard streams that are closed, or not ready.
. "$(dirname "$(readlink -f "$0")")/helpers.bash"

# --- closed pipes
fresh
printf 'set 5 0a0b\n' | "$face" run 1 >/dev/null
told 'an input that ends at once' 0 'open 1' '' run 1
out=$("$face" run 1 <&- 2>&-)
[ $? -eq 5 ] && [ "$out" = "$(printf 'open 1\nfault input')" ]
verdict 'no input' $?
printf 'get 5\n' | "$face" run 1 >&- 2>/dev/null
[ $? -eq 6 ]
verdict 'no output' $?
told 'closed streams cost nothing' 0 'open 1/value 0a0b' 'get 5/' run 1
{
    (
        sleep 0.2
        printf 'set 5 0c\nset 5 0d\nset 5 0e\n'
    ) | "$face" run 1 2>/dev/null
    echo $? >status
} | head -n 1 >first
[ "$(cat first)" = 'open 1' ] && [ "$(cat status)" -eq 6 ]
verdict 'an output that is closed ends the run' $?
open=$(printf 'get 5\n' | "$face" run 1 | tr '\n' /)
[ "$open" = 'open 2/value 0c/' ]
verdict "what was set before the lost reply holds: $open" $?

# --- standard streams that don't block
if has python3; then
    # unblocked DESCRIPTOR WORDS..: the program with this standard stream not blocking
    unblocked() {
        python3 -c 'import os, sys; os.set_blocking(int(sys.argv[1]), False); os.execv(sys.argv[2], sys.argv[2:])' "$1" "$face" "${@:2}"
    }
    fresh
    out=$({
        sleep 0.2
        printf 'set 5 0c\nge'
        sleep 0.2
        printf 't 5\n'
        sleep 0.2
    } | unblocked 0 run 1)
    [ $? -eq 0 ] && [ "$out" = "$(printf 'open 0\ncommitted 1\nvalue 0c')" ]
    verdict 'an input that is not ready is waited for' $?
    awk 'BEGIN { for (i = 1; i <= 20000; i++) print "get 5"; print "set 5 0d" }' >gets
    { unblocked 1 run 1 <gets; echo $? >status; } | { sleep 1; cat; } >replies
    [ "$(cat status)" -eq 0 ] && [ "$(wc -l <replies)" -eq 20002 ] && [ "$(tail -n 1 replies)" = 'committed 2' ]
    verdict 'an output that is full is waited for' $?
else
    skip 'streams that do not block: need python3'
fi

finish
