#!/usr/bin/env bash
# Sees that a command writes and ends as the stored run of a program says: args, data, stdout and status in its crate.
#   tools/stored_run.sh PROGRAM COMMAND ..
# The command runs in the crate's folder, followed by the words of args. What it says to standard error is shown only where it fails.
set -eu
crate=$(cd "$(dirname "$0")/../crates/$1" && pwd)
program=$1
shift
words=()
while IFS= read -r word; do
    if [ -e "$crate/data/$word" ]; then words+=("$crate/data/$word"); else words+=("$word"); fi
done < "$crate/args"
work=$(mktemp -d)
trap 'rm -rf "$work"' EXIT
status=0 wanted=0
(cd "$crate" && exec "$@" "${words[@]}") > "$work/stdout" 2> "$work/stderr" || status=$?
[ ! -e "$crate/status" ] || wanted=$(cat "$crate/status")
if [ "$status" != "$wanted" ] || ! cmp "$work/stdout" "$crate/stdout" >&2; then
    cat "$work/stderr" >&2
    echo "$program: its stored run ended with $status for $wanted, or wrote something else" >&2
    exit 1
fi
