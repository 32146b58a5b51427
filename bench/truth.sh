#!/usr/bin/env bash
# How far the labels of a result can be trusted: over made-up Internets whose relationships are known.
#   bench/truth.sh TOR
# TOR is the program `tor`. Six tables are made by internet.sh, which needs cc: 15,000 networks, 40,000 peerings, 20,000 prefixes of which
# 4 in 100 are leaked, with 20 and 40 vantage points and the seeds 1, 2 and 3. What truth.py finds of their results is printed as tables in
# Markdown; its head says what they tell. It takes a minute of processor time, and 150 MB in TMPDIR.
set -euo pipefail
tor=$(realpath "$1") here=$(cd "$(dirname "$0")" && pwd)
work=$(mktemp -d)
trap 'rm -rf "$work"' EXIT
cd "$work"

# The networks that buy from nobody: no line of the truth has them as a customer.
tier1() { # TRUTH
    awk -F'|' '{ seen[$1]; seen[$2] } $3 == -1 { buys[$2] } END { for (as in seen) if (!(as in buys)) print as }' "$1" | sort -n
}

# A contract for each edge that has one end in the list.
contracts() { # LIST RESULT
    awk -F'|' 'NR == FNR { top[$1]; next }
        /^edge/ && ($2 in top) != ($3 in top) { print ($2 in top ? $2 "|" $3 : $3 "|" $2) "|-1" }' "$1" "$2"
}

# The edge lines of a result, and the lost paths.
result() { # OPTION ..
    "$tor" "$@" table 2> summary | awk -F'|' '$1 == "edge"; $1 == "lost" { print $1 "|" $3 }'
}

for vantages in 20 40; do
    for seed in 1 2 3; do
        found=$vantages-$seed
        mkdir "$found"
        "$here/internet.sh" --ases 15000 --peerings 40000 --prefixes 20000 --vantages "$vantages" --seed "$seed" \
            --truth "$found/truth" table > said
        "$tor" --list table 2> summary | cut -d'|' -f2 > "$found/paths"
        for ratio in 10 5; do result --ratio "$ratio" > "$found/ratio$ratio"; done
        result > "$found/seen"
        tier1 "$found/truth" > "$found/tier1"
        contracts "$found/tier1" "$found/seen" > "$found/contracts"
        known=(--top "$(paste -sd, "$found/tier1")")
        result --order short > "$found/short"
        result "${known[@]}" > "$found/known-seen"
        result "${known[@]}" --order short > "$found/known-short"
    done
done
python3 "$here/truth.py" ./*-*
