#!/usr/bin/env bash
# Databases that a program made whose values had at most 120 octets: one that ended, and one that was killed with two
# sessions at work. Each has beside its files what that program told of them: its records, by `scan`.
. "$(dirname "$(readlink -f "$0")")/helpers.bash"

if ! has tar || ! has gzip; then
    skip 'databases of an earlier program: tar or gzip is wanting'
    finish
fi
long=$(printf '5a%.0s' $(seq 200))

# database NAME CHECKED: the records are as they were, and a value of 200 octets finds its place beside them
database() {
    mkdir "$folder/$1"
    cd "$folder/$1" || exit 1
    tar -xzf "$root/checks/on_files/values_to_120/$1.tar.gz" || exit 1
    told "$1: it is sound" 0 "$2" '' check
    printf 'begin 0\nscan 0 0 64\nscan 0 64 32\n' | "$face" run 4 | cmp -s - records
    verdict "$1: its records" $?
    opened=$(sed 's/^open //; q' records)
    told "$1: a longer value" 0 "open $opened/committed $((opened + 1))/value $long" "set 40 $long/get 40/" run 1
    told "$1: and again" 0 "open $((opened + 1))/value $long" 'get 40/' run 1
}

database ended 'sound records 96 commits 98'
database cut 'sound records 48 commits 50'

finish
