#!/usr/bin/env bash
# Makes an archive of the programs for machines without the kit: bin/ and share/ as `make install` has them, the README, each file of the
# repository that it names, with what lies beside a script, docs/*.md and samples/.
#   tools/dist.sh ARCHIVE PROGRAM ..
#
# The archive has the name of a commit, since no version is chosen.
set -eu
archive=$PWD/$1
shift
cd "$(dirname "$0")/.."
top=$(basename "$archive" .tar.gz)
work=$(mktemp -d)
trap 'rm -rf "$work"' EXIT
tools/install.sh "$work/$top" tor "$@" > /dev/null
git ls-files | LC_ALL=C sort > "$work/files"
grep -oE '[A-Za-z0-9_.][A-Za-z0-9_./-]*[A-Za-z0-9_]' README.md | LC_ALL=C sort -u | LC_ALL=C comm -12 - "$work/files" > "$work/named"
sed -nE 's#^(.*/)[^/]*\.(sh|py)$#^\1#p' "$work/named" | sort -u | grep -f - "$work/files" > "$work/beside" || true
{ echo README.md; ls docs/*.md; cat "$work/named" "$work/beside"; } | sort -u | xargs cp --parents -t "$work/$top"
cp -r samples "$work/$top/"
chmod -R u=rwX,go=rX "$work/$top"
tar -C "$work" --sort=name --owner=0 --group=0 --numeric-owner --mtime="@$(git log -1 --format=%ct)" -cf - "$top" | gzip -n > "$archive"
echo "$archive"
