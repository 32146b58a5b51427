#!/usr/bin/env bash
# What tables take, from small ones to the whole table of a collector: time and peak memory of `tor` and `tor --list`.
#   bench/collector.sh TOR
# The tables are made by internet.sh, which needs cc: 80,000 networks and 170,000 peerings, and for each size PEERSxPREFIXES so many full
# peers of the collector and prefixes. SIZES has other sizes. For each a line of a table in Markdown: the routes, the distinct paths that
# count, the least seconds of processor time and the greatest MiB of RUNS runs (3), the same of the list, and with how many such peers the
# limit of 2^23 distinct paths would be met. It takes GNU time, five minutes, and 2.4 GB in TMPDIR.
set -euo pipefail
tor=$1 here=$(cd "$(dirname "$0")" && pwd)
work=$(mktemp -d)
trap 'rm -rf "$work"' EXIT

# What a run over the table takes: seconds, and MiB.
used() { # OPTION ..
    rm -f "$work/used"
    for _ in $(seq "${RUNS:-3}"); do
        /usr/bin/time -a -f '%U %S %M' -o "$work/used" "$tor" "$@" "$work/table" > /dev/null 2> "$work/note"
    done
    awk 'NR == 1 || $1 + $2 < time { time = $1 + $2 } $3 > memory { memory = $3 }
        END { printf "%.1f s, %.0f MiB", time, memory / 1024 }' "$work/used"
}

echo '| Full peers | Prefixes | Routes | Distinct paths | `tor` | `tor --list` | Peers at the limit |'
echo '|---|---|---|---|---|---|---|'
for size in ${SIZES:-20x50000 20x200000 20x1000000 40x1000000}; do
    peers=${size%x*} prefixes=${size#*x}
    "$here/internet.sh" --ases 80000 --peerings 170000 --prefixes "$prefixes" --vantages "$peers" --seed 1 "$work/table" > "$work/said"
    "$tor" --survey "$work/table" > "$work/survey" 2> "$work/note"
    routes=$(awk -F'|' '$1 == "routes" { print $2 }' "$work/survey")
    paths=$(awk -F'|' '$1 == "paths" { print $2 }' "$work/survey")
    result=$(used)
    list=$(used --list)
    awk -v peers="$peers" -v prefixes="$prefixes" -v routes="$routes" -v paths="$paths" -v result="$result" -v list="$list" 'BEGIN {
        printf "| %d | %d | %.1f million | %.2f million | ", peers, prefixes, routes / 1e6, paths / 1e6
        printf "%s | %s | %.0f |\n", result, list, 8388608 / paths * peers }'
done
