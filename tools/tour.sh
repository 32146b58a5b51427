#!/usr/bin/env bash
# Runs the commands of a page in a fresh folder, and compares what they print with what the page says.
#   tools/tour.sh BIN SAMPLES PAGE
# BIN is the folder of the programs. A command is a line `    $ COMMAND`, and what it prints, to standard output and to standard error,
# stands in the lines after it, up to an empty line or the end of the block. There `..` stands for anything within a line, and for any
# lines where it stands alone. All commands run in one shell, one after the other. The folder has a copy of SAMPLES as samples/, and
# nothing else. Where a program that the commands need is not installed, nothing is run, and one sentence says so.
set -u
bin=$(cd "$1" && pwd) samples=$(cd "$2" && pwd) page=$(cd "$(dirname "$3")" && pwd)/$(basename "$3")
for program in awk bzip2 gzip; do
    if ! command -v "$program" > /dev/null; then
        echo "the commands of $(basename "$page") were not run, since $program is not installed"
        exit 0
    fi
done
work=$(mktemp -d) || exit 1
trap 'rm -rf "$work"' EXIT
mkdir "$work/folder" && cd "$work/folder" || exit 1
cp -rL "$samples" samples
PATH=$bin:$PATH

# The regular expression of what a page says that a command prints.
pattern() {
    awk '{
        if ($0 == "..") { printf "([^\n]*\n)*"; next }
        line = $0
        gsub(/[][\\.*^$+?(){}|]/, "\\\\&", line)
        gsub(/\\\.\\\./, "[^\n]*", line)
        printf "%s\n", line
    }' "$1"
}

run=0 failed=0

# Runs a command of the page, and compares.
try() { # COMMAND, with what it has to print in $work/wanted
    eval "$1" > "$work/printed" 2>&1 < /dev/null
    run=$((run + 1))
    local wanted printed
    wanted=$(pattern "$work/wanted"; echo x) printed=$(cat "$work/printed"; echo x)
    if ! [[ $printed =~ ^${wanted%x}x$ ]]; then
        failed=$((failed + 1))
        printf '%s: this command prints something else than the page says:\n    $ %s\n' "$page" "$1" >&2
        diff "$work/wanted" "$work/printed" >&2
    fi
}

command=
: > "$work/wanted"
while IFS= read -r line <&3; do
    case $line in
        '    $ '*)
            [ -z "$command" ] || try "$command"
            command=${line#'    $ '}
            : > "$work/wanted" ;;
        '    '*)
            [ -z "$command" ] || printf '%s\n' "${line#'    '}" >> "$work/wanted" ;;
        *)
            [ -z "$command" ] || try "$command"
            command= ;;
    esac
done 3< "$page"
[ -z "$command" ] || try "$command"

[ "$run" -gt 0 ] || { echo "$page: no command" >&2; exit 1; }
[ "$failed" = 0 ] || { echo "$page: $failed of $run commands print something else than it says" >&2; exit 1; }
echo "$(basename "$page"): its $run commands print what it says"
