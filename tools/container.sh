#!/usr/bin/env bash
# Tries an archive of `make dist` in a bare Debian system without the kit: every command of its README, as `nobody`.
#   tools/container.sh ARCHIVE
# It makes the system with debootstrap, so it needs root and a network.
set -eu
archive=$(cd "$(dirname "$1")" && pwd)/$(basename "$1")
cd "$(dirname "$0")/.."
root=$(mktemp -d)
trap 'rm -rf --one-file-system "$root"' EXIT
debootstrap --variant=minbase --include=bzip2 bookworm "$root" > "$root.log" || { tail -n 5 "$root.log" >&2; exit 1; }
rm -f "$root.log"
chmod 755 "$root"
mkdir "$root/srv/tor"
tar -C "$root/srv/tor" --strip-components=1 --no-same-owner -xf "$archive"
cp tools/tour.sh "$root/srv/"
unshare --mount bash -euc '
    mount -t proc proc "$0/proc"
    chroot --userspec=65534:65534 "$0" /bin/bash -c "cd /srv/tor && exec /srv/tour.sh bin samples README.md"' "$root"
