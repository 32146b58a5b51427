#!/usr/bin/env bash
# Time and peak memory of two builds of `tor` over the same dumps in one run, and whether they write the same.
#   bench/compare.sh TOR OTHER DUMP ..
# OTHER is another build, such as that of an earlier commit. Any program will do that takes `--list DUMP` and `DUMP` as docs/FORMATS.md
# says. For each DUMP there is a line for the list and one for the result. Both builds run in turn, RUNS times (3), and the least times and
# the greatest memory are compared. Of results the evidence isn't compared: the walks of lost paths, and the why and open lines.
set -euo pipefail
tor=$1 other=$2
shift 2
work=$(mktemp -d)
trap 'rm -rf "$work"' EXIT

# One run: its text in the file of that name, and beside it what it took: seconds of the user and of the system, and KiB.
run() { # NAME PROGRAM WORD ..
    local name=$1
    shift
    /usr/bin/time -a -f '%U %S %M' -o "$work/$name.used" "$@" > "$work/$name" 2> "$work/note"
}

least() { # NAME
    awk 'NR == 1 || $1 + $2 < time { time = $1 + $2 } $3 > memory { memory = $3 } END { print time, memory / 1024 }' "$work/$1.used"
}

bare() { # NAME
    sed -E '/^(why|open)\|/d; s/^(lost\|[0-9]*\|[0-9 ]*)\|.*/\1/' "$work/$1"
}

for dump in "$@"; do
    for mode in --list result; do
        rm -f "$work"/*
        words=("$dump")
        [ "$mode" = result ] || words=("$mode" "$dump")
        for _ in $(seq "${RUNS:-3}"); do
            run ours "$tor" "${words[@]}"
            run theirs "$other" "${words[@]}"
        done
        if cmp -s <(bare ours) <(bare theirs); then same="the same text"; else same="OTHER TEXT"; fi
        echo "$(least ours) $(least theirs)" | awk -v dump="$dump" -v mode="$mode" -v same="$same" '{
            printf "%s, %s: %.2f s %.0f MiB, the other %.2f s %.0f MiB, ", dump, mode, $1, $2, $3, $4
            printf "ratios %.2f and %.2f, %s\n", ($3 > 0 ? $1 / $3 : 0), $2 / $4, same }'
    done
done
