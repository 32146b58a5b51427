#!/usr/bin/env bash
# Compares what the pages of the programs say with what the programs say of themselves, and says what differs.
#   tools/pages.sh BIN PROGRAM ..
# For each program: man/PROGRAM.1 and its completions for bash and zsh name the options of `PROGRAM --help`, no more and no fewer. The man
# page says each option's default, and each number that help gives as a bound, and has the exit statuses and the notes of docs/FORMATS.md.
# None of its lines has more than 80 octets. Where mandoc or man is installed, it has no warning about the page; what mandoc says of style,
# as of a page that isn't installed, is no fault.
set -u
bin=$(cd "$1" && pwd)
shift
cd "$(dirname "$0")/.." || exit 1
work=$(mktemp -d) || exit 1
trap 'rm -rf "$work"' EXIT
failed=0

complain() {
    echo "$1" >&2
    failed=1
}

# The options in a text, each once.
options() {
    grep -oE -e '--[a-z][a-z0-9-]*' | sort -u
}

# The lines of a section of docs/FORMATS.md.
section() { # TITLE
    awk -v title="## $1" '/^## / { inside = ($0 == title) } inside' docs/FORMATS.md
}

# Says what one list has and another lacks.
same() { # WHAT FILE FILE
    cmp -s "$2" "$3" || complain "$1: $(diff "$2" "$3" | sed -n 's/^< /lacks /p; s/^> /has /p' | paste -s -d ',')"
}

# The statuses of a program in docs/FORMATS.md: of the rows whose second cell is `all` or names it.
statuses() { # PROGRAM
    section 'Notes and exit statuses' | sed 's/\\|/;/g' | awk -F' *[|] *' -v name="\`$1\`" '
        $2 ~ /^[0-9]+$/ && ($3 == "all" || index($3, name)) { print $2 }' | sort -u
}

for program in "$@"; do
    page=man/$program.1
    if [ ! -e "$page" ]; then complain "$page is not there"; continue; fi
    "$bin/$program" --help > "$work/help" 2>&1
    # Help itself is an option of each program, and stands on no page.
    options < "$work/help" | grep -vx -e --help > "$work/said"
    sed -nE 's/^\.It Fl -([a-z0-9-]+).*/--\1/p' "$page" | sort -u > "$work/page"
    same "$page" "$work/said" "$work/page"
    for completion in "completions/$program.bash" "completions/_$program"; do
        if [ -e "$completion" ]; then options < "$completion" > "$work/page"; else complain "$completion is not there"; : > "$work/page"; fi
        same "$completion" "$work/said" "$work/page"
    done
    for number in $(grep -oE '[0-9]+' "$work/help" | sort -u); do
        grep -qE "(^|[^0-9])$number([^0-9]|$)" "$page" || complain "$page lacks the number $number, which help has"
    done
    for default in $(sed -nE 's/.*\[default: ([a-z0-9]+)\].*/\1/p' "$work/help"); do
        grep -A 1 -x 'The default is' "$page" | grep -qx "\.Cm $default \." || complain "$page lacks the default $default, which help has"
    done
    statuses "$program" > "$work/said"
    [ -s "$work/said" ] || complain "docs/FORMATS.md has no statuses of $program"
    sed -nE '/^\.Sh EXIT STATUS/,/^\.Sh EXAMPLES/s/^\.It ([0-9]+)$/\1/p' "$page" | sort > "$work/page"
    same "$page, its statuses" "$work/said" "$work/page"
    notes='usage read-fault write-fault limit no-memory'
    if grep -qx 3 "$work/said"; then notes="$notes malformed"; fi
    for note in $notes; do
        grep -qE "^\.(It )?Ql $note(\||$| )" "$page" || complain "$page lacks the note $note"
    done
    LC_ALL=C awk -v page="$page" 'length > 80 { print page ":" NR ": " length " octets, and a line has at most 80" }' "$page" > "$work/long"
    [ ! -s "$work/long" ] || complain "$(cat "$work/long")"
    if command -v mandoc > "$work/which"; then
        mandoc -Tlint -W warning "$page" > "$work/lint" 2>&1
        [ ! -s "$work/lint" ] || complain "$(cat "$work/lint")"
    fi
    if command -v man > "$work/which" && man --help 2>&1 | grep -q -e --warnings; then
        LC_ALL=C.UTF-8 man --warnings -E UTF-8 -l -Tutf8 -Z "$page" 2> "$work/lint" > "$work/text"
        [ ! -s "$work/lint" ] || complain "$(cat "$work/lint")"
    fi
done
[ "$failed" = 0 ] || exit 1
echo "the pages of $* say what the programs say"
