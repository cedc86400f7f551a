#!/usr/bin/env bash
# `bin/move`: the records of a database into one of other sizes.
. "$(dirname "$(readlink -f "$0")")/helpers.bash"
export FACE=$face

# database FOLDER PAGES GROUPS BLOCKS
database() {
    mkdir "$folder/$1"
    cd "$folder/$1" || exit 1
    "$face" new "$2" "$3" "$4" >/dev/null </dev/null
}

# --- from four pages and a log of 16 blocks to six, and back into a smaller log
database old 4 8 16
seq 0 127 | awk '$1 % 3 { print "set", $1, sprintf("%04x", $1) } END { print "set 0 -" }' | "$face" run 4 >/dev/null
[ "$("$root/bin/move" "$folder/old" "$folder/new" 2>&1)" = "move: there is no $folder/new/face.log" ]
verdict 'a folder without a database' $?
database new 6 12 64
cd /
[ "$("$root/bin/move" "$folder/old" "$folder/new")" = '86 records moved' ]
verdict 'all records are moved' $?
database again 4 8 16
cd /
[ "$("$root/bin/move" "$folder/new" "$folder/again" 2>&1)" = '86 records moved' ]
verdict 'and back, by small transactions' $?
asked=$(printf 'begin 0\nscan 0 0 64\nscan 0 64 64\n')
for name in old again; do
    (cd "$folder/$name" && printf '%s\n' "$asked" | "$face" run 4 | sed 1d) >"$folder/$name.records"
done
cmp -s "$folder/old.records" "$folder/again.records" && [ "$(wc -l <"$folder/old.records")" -eq 89 ]
verdict 'each as it was' $?

# --- a database with fewer pages has no place for all
database small 3 8 16
cd /
said=$("$root/bin/move" "$folder/old" "$folder/small" 2>&1)
[ $? -ne 0 ] && grep -q "^move: $folder/small answers: refused record" <<<"$said"
verdict 'too few pages' $?

finish
