#!/usr/bin/env bash
# Time and peak memory of what `tor` writes in place of the result beside those of the result, over the same dumps in one run; and of the
# result and the list in the order short beside those as seen.
#   bench/modes.sh TOR DUMP ..
# Each is run in turn, RUNS times, 5 if not set; the least times are compared. Texts go to /dev/null.
set -euo pipefail
tor=$1
shift
work=$(mktemp -d)
trap 'rm -rf "$work"' EXIT

# What one run took: seconds of the user and of the system, and KiB.
run() { # NAME OPTION ..
    local name=$1
    shift
    /usr/bin/time -a -f '%U %S %M' -o "$work/$name" "$tor" "$@" "$dump" > /dev/null 2> "$work/note"
}

# The least time and the least memory of the runs of that name.
least() {
    awk 'NR == 1 || $1 + $2 < time { time = $1 + $2 } NR == 1 || $3 < memory { memory = $3 } END { print time, memory }' "$work/$1"
}

# A line on the one beside the other.
beside() { # NAME NAME
    echo "$(least "$1") $(least "$2")" | awk -v dump="$dump" -v one="$1" -v other="$2" '{
        printf "%s: %s %.2f s %.0f MiB, %s %.2f s %.0f MiB, ", dump, one, $1, $2 / 1024, other, $3, $4 / 1024
        printf "ratios %.2f and %.2f\n", ($3 > 0 ? $1 / $3 : 0), $2 / $4 }'
}

for dump in "$@"; do
    rm -f "$work"/*
    for _ in $(seq "${RUNS:-5}"); do
        run result
        for mode in list survey ties serial1; do run "$mode" "--$mode"; done
        run short-result --order short
        run short-list --order short --list
    done
    for mode in list survey ties serial1; do beside "$mode" result; done
    for mode in result list; do beside "short-$mode" "$mode"; done
done
