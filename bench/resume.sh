#!/usr/bin/env bash
# What it takes to go on from a result, beside checking it and making it, over the same dump in one run.
#   bench/resume.sh TOR TORCHECK DUMP ..
# Each run is made in turn, RUNS times, 5 if not set; the least times are compared. Texts go to files in memory, if /dev/shm is there. Of
# each DUMP the result is resumed with a dump of nothing, which is compared with the sum of `torcheck` on the result and of what the result
# takes beyond the list; and that of its first nine tenths of records with the rest, which is compared with one run over both.
set -euo pipefail
tor=$1 torcheck=$2
shift 2
work=$(mktemp -d -p "$([ -d /dev/shm ] && echo /dev/shm || echo "${TMPDIR:-/tmp}")")
trap 'rm -rf "$work"' EXIT

# The first nine tenths of the records of a dump, and the rest behind the peer table that stands first.
part() { # DUMP
    python3 - "$1" "$work/first.mrt" "$work/rest.mrt" << 'END'
import struct, sys
octets = open(sys.argv[1], "rb").read()
starts, at = [], 0
while at < len(octets):
    starts.append(at)
    at += 12 + struct.unpack(">I", octets[at + 8:at + 12])[0]
has_peers = octets[4:8] == struct.pack(">HH", 13, 1)
cut = starts[len(starts) * 9 // 10]
open(sys.argv[2], "wb").write(octets[:cut])
open(sys.argv[3], "wb").write((octets[:starts[1]] if has_peers else b"") + octets[cut:])
END
}

# What one run took: seconds of the user and of the system, and KiB. The text goes to the file of that name.
run() { # NAME PROGRAM WORD ..
    local name=$1
    shift
    /usr/bin/time -a -f '%U %S %M' -o "$work/$name.times" "$@" > "$work/$name" 2> "$work/note"
}

# The least time and the least memory of the runs of that name.
least() {
    awk 'NR == 1 || $1 + $2 < time { time = $1 + $2 } NR == 1 || $3 < memory { memory = $3 } END { print time, memory / 1024 }' "$work/$1.times"
}

# All lines but the evidence.
plain() {
    sed '/^why|/d; /^open|/d; s/^\(lost|[0-9]*|[^|]*\)|.*/\1/' "$1"
}

for dump in "$@"; do
    rm -f "$work"/*
    part "$dump"
    : > "$work/nothing.mrt"
    "$tor" "$dump" > "$work/whole.text" 2> /dev/null
    "$tor" "$work/first.mrt" > "$work/first.text" 2> /dev/null
    for _ in $(seq "${RUNS:-5}"); do
        run list "$tor" --list "$dump"
        run result "$tor" "$dump"
        run check "$torcheck" "$work/whole.text"
        run again "$tor" --resume "$work/whole.text" "$work/nothing.mrt"
        run both "$tor" "$work/first.mrt" "$work/rest.mrt"
        run rest "$tor" --resume "$work/first.text" "$work/rest.mrt"
    done
    cmp <(plain "$work/again") <(plain "$work/result")
    cmp <(plain "$work/rest") <(plain "$work/both")
    paths=$(grep -c '^kept|\|^lost|' "$work/whole.text") first=$(grep -c '^kept|\|^lost|' "$work/first.text")
    echo "$(least list) $(least result) $(least check) $(least again) $(least both) $(least rest)" | awk -v dump="$dump" -v paths="$paths" -v first="$first" '{
        printf "%s: %d paths, of which the rest adds %.1f %%\n", dump, paths, 100 * (paths - first) / paths
        printf "  list %.2f s %.0f MiB, result %.2f s %.0f MiB, torcheck %.2f s %.0f MiB\n", $1, $2, $3, $4, $5, $6
        printf "  resumed with nothing %.2f s %.0f MiB: %.2f times the sum\n", $7, $8, $7 / ($5 + $3 - $1)
        printf "  resumed with the rest %.2f s %.0f MiB, both in one run %.2f s %.0f MiB: ratios %.2f and %.2f\n", $11, $12, $9, $10, $11 / $9, $12 / $10 }'
done
