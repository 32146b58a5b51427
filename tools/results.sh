#!/usr/bin/env bash
# Compares the stored results with what `tor` prints of their tables, has `torcheck` judge them, and compares the picture of the README with
# what `torview` draws.
#   tools/results.sh BIN SAMPLES DOCS
set -eu
for result in "$2"/*.result.txt; do
    dump=${result%.result.txt}.mrt
    "$1/tor" "$dump" 2> /dev/null | cmp - "$result"
    [ "$("$1/torcheck" "$result" "$dump")" = yes ] || { echo "$result is no result of $dump" >&2; exit 1; }
done
both=$(mktemp)
trap 'rm -f "$both"' EXIT
"$1/tor" "$2/frr.routes-mrt" "$2/openbgpd.table" 2> /dev/null > "$both"
"$1/torview" "$both" 13175 | cmp - "$3/as13175.svg"
echo "the stored results are what tor prints, and the picture is what torview draws"
