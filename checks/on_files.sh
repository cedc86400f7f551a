#!/usr/bin/env bash
# Tries the program over real files as a user would, by the scripts of on_files/, or those that are named: new, run,
# words on standard error, kills, files that can't be used, full disks, failing calls and closed pipes. Tells what
# failed or was skipped for want of a tool, and 'N passed, M failed, K skipped' of each script and of all. FACE names
# another program than the one that bin/face runs.
set -u
root=$(cd "$(dirname "$(readlink -f "$0")")/.." && pwd)
if [ -z "${FACE:-}" ]; then
    "$root/bin/face" help >/dev/null 2>&1 </dev/null
    FACE=$("$root/bin/which") || exit 1
fi
export FACE
told=$(mktemp -d)
trap 'rm -rf "$told"' EXIT
if [ $# -eq 0 ]; then
    for script in "$root"/checks/on_files/*.sh; do
        set -- "$@" "$(basename "$script" .sh)"
    done
fi

# All at once; each in a folder of its own.
for name in "$@"; do
    "$root/checks/on_files/$name.sh" >"$told/$name" 2>&1 &
done
wait
for name in "$@"; do
    sed '$d' "$told/$name"
    echo "$name: $(tail -n 1 "$told/$name")"
done
tail -q -n 1 "$told"/* | awk -v scripts=$# '
    / passed, .* failed, .* skipped$/ { ended++; passed += $1; failed += $3; skipped += $5 }
    END { print passed " passed, " failed " failed, " skipped " skipped"; exit failed > 0 || ended < scripts }'
