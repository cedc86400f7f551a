# What the scripts of this folder share: each works in a folder of its own, which it removes, tries the program as a
# user would, and ends by `finish`, which tells 'N passed, M failed, K skipped'. FACE names another program than the
# one that bin/face runs.
# Two scripts of checks/ take the folder and the program from here, and tell their own counts.
set -u
root=$(cd "$(dirname "$(readlink -f "${BASH_SOURCE[0]}")")/../.." && pwd)
shared=/dev/shm
[ -d "$shared" ] && [ -w "$shared" ] || shared=${TMPDIR:-/tmp}
folder=$(mktemp -d -p "$shared")
chmod 755 "$folder"
trap 'cd /; rm -rf "$folder"' EXIT
if [ -z "${FACE:-}" ]; then
    "$root/bin/face" help >/dev/null 2>&1 </dev/null
    FACE=$("$root/bin/which") || exit 1
fi
cp "$FACE" "$folder/face" || exit 1
face=$folder/face
passed=0
failed=0
skipped=0

# verdict NAME, with the status of the test before it
verdict() {
    if [ "$2" -eq 0 ]; then
        passed=$((passed + 1))
    else
        failed=$((failed + 1))
        echo "failed: $1"
    fi
}

skip() {
    skipped=$((skipped + 1))
    echo "skipped: $1"
}

has() {
    command -v "$1" >/dev/null 2>&1
}

# told NAME STATUS TEXT INPUT WORDS..: the program ends with this status after this text; a slash stands for a newline
told() {
    local name=$1 status=$2 text=$3 input=$4
    shift 4
    local out got
    out=$(printf '%s' "$input" | tr / '\n' | "${prefix[@]}" "$face" "$@" 2>/dev/null)
    got=$?
    [ "$got" -eq "$status" ] && [ "$out" = "$(printf '%s' "$text" | tr / '\n')" ]
    local ok=$?
    [ $ok -eq 0 ] || echo "  $name: status $got, told: $(printf '%s' "$out" | tr '\n' /)"
    verdict "$name" $ok
}
prefix=()

# says NAME STATUS PATTERN WORDS..: the program ends with this status, and standard error has a line of this pattern
says() {
    local name=$1 status=$2 pattern=$3 got
    shift 3
    "${prefix[@]}" "$face" "$@" >"$folder/out" 2>"$folder/said" </dev/null
    got=$?
    [ "$got" -eq "$status" ] && grep -q -x -e "$pattern" "$folder/said"
    local ok=$?
    [ $ok -eq 0 ] || echo "  $name: status $got, said: $(cat "$folder/said")"
    verdict "$name" $ok
}

# awaits WORD FILE: until the file has the word, for five seconds at most
awaits() {
    for _ in $(seq 100); do
        grep -q "$1" "$2" && break
        sleep 0.05
    done
}

# a folder with a fresh database
fresh() {
    rm -rf "$folder/db"
    mkdir "$folder/db"
    cd "$folder/db" || exit 1
    "$face" new 16 8 64 >/dev/null </dev/null
}

finish() {
    echo "$passed passed, $failed failed, $skipped skipped"
    [ "$failed" -eq 0 ]
    exit
}
