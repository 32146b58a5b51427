#!/usr/bin/env bash
# Makes a table over a made-up Internet: compiles internet.c with cc, and runs it.
#   bench/internet.sh [OPTION ..] DUMP
# The head of internet.c tells the options. A table of 20,000 prefixes and 40 vantage points takes two seconds, with the compiling.
set -euo pipefail
if ! command -v cc > /dev/null; then
    echo "bench/internet.sh needs a C compiler as cc (Debian's package gcc)" >&2
    exit 1
fi
work=$(mktemp -d)
trap 'rm -rf "$work"' EXIT
cc -O2 -o "$work/internet" "$(dirname "$0")/internet.c" -lm
"$work/internet" "$@"
