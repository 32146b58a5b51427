#!/usr/bin/env bash
# Puts the built programs, their man pages and their completions into a folder, under names that begin with NAME in place of `tor`.
#   tools/install.sh FOLDER NAME PROGRAM ..
set -eu
folder=$1 name=$2
shift 2
cd "$(dirname "$0")/.."
for program in "$@"; do
    [ -x "bin/$program" ] || { echo "bin/$program is not there yet: run make first" >&2; exit 1; }
done

# A text in which each program has its new name, also in capitals and within the names of functions.
renamed() { # FILE
    local capitals
    capitals=$(printf '%s' "$name" | tr '[:lower:]' '[:upper:]')
    sed -E "s/\\b(_?)tor(check|grade|why|view)?\\b/\\1$name\\2/g; s/\\bTOR(CHECK|GRADE|WHY|VIEW)?\\b/$capitals\\1/g" "$1"
}

bash=$folder/share/bash-completion/completions zsh=$folder/share/zsh/site-functions
mkdir -p "$folder/bin" "$folder/share/man/man1" "$bash" "$zsh"
for program in "$@"; do
    new=$name${program#tor}
    install -m 755 "bin/$program" "$folder/bin/$new"
    renamed "man/$program.1" > "$folder/share/man/man1/$new.1"
    renamed "completions/$program.bash" > "$bash/$new"
    renamed "completions/_$program" > "$zsh/_$new"
    echo "$folder/bin/$new"
done
[ "$name" = tor ] || echo "the help of these programs still prints the names $*"
