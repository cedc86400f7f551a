#!/usr/bin/env bash
# A client that sends each line when it has the reply to the one before: it never waits in vain.
. "$(dirname "$(readlink -f "$0")")/helpers.bash"

fresh
coproc program { exec "$face" run 1 2>/dev/null; }
took=$program_PID
exec 7<&"${program[0]}" 8>&"${program[1]}"
eval "exec ${program[0]}<&- ${program[1]}>&-"

# replies TEXT: the next line of the program within five seconds
replies() {
    local line
    read -r -t 5 line <&7
    [ "$line" = "$1" ]
    verdict "a client that waits is told '$1'" $?
}

replies 'open 0'
while read -r line reply; do
    printf '%s\n' "${line//_/ }" >&8
    replies "${reply//_/ }"
done <<'EOF'
get_5 none
set_5_0a0b committed_1
get_5 value_0a0b
begin_0 ok
write_0_5_ff ok
read_0_5 value_ff
commit_0 committed_2
nonsense refused_line
EOF

# half of a line, and the other half with the front of the next one
printf 'ge' >&8
printf 't 5\nge' >&8
replies 'value ff'
printf 't 6\n' >&8
replies 'none'
# several lines at once
printf 'get 5\nget 6\nset 6 00\n' >&8
replies 'value ff'
replies 'none'
replies 'committed 3'
# the client keeps its pipe open: the run ends for all that, within five seconds
printf 'quit\n' >&8
replies 'bye'
(sleep 5 && kill "$took") >/dev/null 2>&1 7<&- 8>&- &
watch=$!
wait "$took"
verdict 'the run ends behind a quit, while its input is open' $?
kill "$watch" 2>/dev/null
exec 8>&-
finish
