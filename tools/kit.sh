#!/usr/bin/env bash
# Says in one sentence if the kit on the PATH isn't one with which the repository is proved.
#   tools/kit.sh LOGIC
set -u
if ! command -v rt > /dev/null; then
    echo "a Rattle kit with the logic $1 is needed on the PATH, and there is no rt on it" >&2
    exit 1
fi
found=$(rt version | head -n 1)
case $found in
    *" logic $1") ;;
    *)
        echo "a Rattle kit with the logic $1 is needed on the PATH, and the one that is there says of itself: $found" >&2
        exit 1 ;;
esac
