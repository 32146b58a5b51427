#!/usr/bin/env bash
# What the programs do at the ends that touch the system: full devices, closed pipes, folders, absent files, standard input, many dumps and
# few descriptors, endless results, relationships and givens. Each line says the run and whether status, output and note were as they should
# be; the script ends with 1 if one was not.
#   bench/system.sh BIN SAMPLES
# BIN is the folder of the programs.
set -uo pipefail
tor=$1/tor torcheck=$1/torcheck torgrade=$1/torgrade torleak=$1/torleak torrank=$1/torrank torwhy=$1/torwhy
torview=$1/torview samples=$2
work=$(mktemp -d)
trap 'rm -rf "$work"' EXIT
failed=0

# Compares the status and the note of a run with what is wanted; the note up to the end of what is wanted, and whole where none is.
expect() { # NAME STATUS WANTED_STATUS WANTED_NOTE
    local note
    if [ -n "$4" ]; then note=$(head -c "${#4}" "$work/note" | tr -d '\0'); else note=$(cat "$work/note"); fi
    if [ "$2" = "$3" ] && [ "$note" = "$4" ]; then
        echo "ok: $1"
    else
        echo "FAILED: $1: status $2 for $3, note '$(head -1 "$work/note")' for '$4'"
        failed=1
    fi
}

same() { # NAME FILE TEXT
    if [ "$(cat "$2")" = "$3" ]; then echo "ok: $1, its output"; else echo "FAILED: $1: output '$(head -3 "$2")'"; failed=1; fi
}

one=$samples/one-edge.mrt
list='1|10 20'

"$tor" --list "$one" > "$work/out" 2> "$work/note"
expect "a list" $? 0 ""
same "a list" "$work/out" "$list"

"$tor" --list "$one" > /dev/full 2> "$work/note"
expect "a full device" $? 5 "write-fault"

"$tor" "$one" > /dev/full 2> "$work/note"
expect "a full device for a result" $? 5 "write-fault"

"$tor" --ties "$one" > /dev/full 2> "$work/note"
expect "a full device for ties" $? 5 "write-fault"

"$tor" --serial1 "$one" > /dev/full 2> "$work/note"
expect "a full device for lines of serial-1" $? 5 "write-fault"

(trap '' XFSZ; ulimit -f 1; "$tor" --list "$samples/openbgpd.table" > "$work/out" 2> "$work/note"; echo $? > "$work/status")
expect "a limit on the size of files" "$(cat "$work/status")" 5 "write-fault"

{ sleep 0.3; "$tor" --list "$one" 2> "$work/note"; echo $? > "$work/status"; } | true
expect "a closed pipe" "$(cat "$work/status")" 5 "write-fault"

"$tor" --list "$samples" > "$work/out" 2> "$work/note"
expect "a folder" $? 4 "read-fault|1"
same "a folder" "$work/out" ""

"$tor" --list "$one" "$work/absent" > "$work/out" 2> "$work/note"
expect "an absent file" $? 4 "read-fault|2"
same "an absent file" "$work/out" ""

if [ "$(id -u)" != 0 ]; then
    cp "$one" "$work/unreadable" && chmod 0 "$work/unreadable"
    "$tor" --list "$work/unreadable" > "$work/out" 2> "$work/note"
    expect "an unreadable file" $? 4 "read-fault|1"
fi

cat "$one" | "$tor" --list /dev/stdin > "$work/out" 2> "$work/note"
expect "standard input through a pipe" $? 0 ""
same "standard input through a pipe" "$work/out" "$list"

many=()
for _ in $(seq 300); do many+=("$one"); done
(ulimit -n 8; exec "$tor" --list "${many[@]}" > "$work/out" 2> "$work/note")
expect "300 dumps and 8 descriptors" $? 0 ""
same "300 dumps and 8 descriptors" "$work/out" "300|10 20"

"$tor" > "$work/out" 2> "$work/note"
expect "no words" $? 2 "usage"
same "no words" "$work/out" ""

"$tor" --list "$(printf '\377')" > "$work/out" 2> "$work/note"
expect "a word that isn't UTF-8" $? 9 ""

"$tor" --list "$work/absent" 2>&- > "$work/out"
status=$?
: > "$work/note"
expect "a closed standard error" $status 4 ""

"$tor" "$one" > "$work/result" 2> "$work/note"
expect "a result" $? 0 '{"asides":0,"edges":1'

"$torcheck" "$work/result" "$one" > "$work/out" 2> "$work/note"
expect "a check" $? 0 ""
same "a check" "$work/out" "yes"

sed 's/^tor|1/tor|3/' "$work/result" > "$work/changed"
"$torcheck" "$work/changed" > "$work/out" 2> "$work/note"
expect "a check of a changed result" $? 1 ""
same "a check of a changed result" "$work/out" "no|1|0"

"$torcheck" "$work/result" > /dev/full 2> "$work/note"
expect "a check on a full device" $? 5 "write-fault"

"$torcheck" "$work/absent" > "$work/out" 2> "$work/note"
expect "an absent result" $? 4 "read-fault|0"

"$torcheck" "$samples" > "$work/out" 2> "$work/note"
expect "a folder for a result" $? 4 "read-fault|0"

for program in "torwhy" "torview"; do
    if [ "$program" = torwhy ]; then words=(10 20) text=edge; else words=(10) text='<svg'; fi
    "$1/$program" "$work/result" "${words[@]}" > "$work/out" 2> "$work/note"
    expect "$program" $? 0 ""
    [ "$(head -c ${#text} "$work/out")" = "$text" ] || { echo "FAILED: $program: output '$(head -1 "$work/out")'"; failed=1; }

    "$1/$program" /dev/stdin "${words[@]}" < "$work/result" > "$work/again" 2> "$work/note"
    expect "$program of standard input" $? 0 ""
    same "$program of standard input" "$work/again" "$(cat "$work/out")"

    "$1/$program" "$work/result" "${words[@]}" > /dev/full 2> "$work/note"
    expect "$program on a full device" $? 5 "write-fault"

    { sleep 0.3; "$1/$program" "$work/result" "${words[@]}" 2> "$work/note"; echo $? > "$work/status"; } | true
    expect "$program into a closed pipe" "$(cat "$work/status")" 5 "write-fault"

    "$1/$program" "$work/absent" "${words[@]}" > "$work/out" 2> "$work/note"
    expect "$program of an absent result" $? 4 "read-fault|0"

    "$1/$program" "$samples" "${words[@]}" > "$work/out" 2> "$work/note"
    expect "$program of a folder" $? 4 "read-fault|0"
    same "$program of a folder" "$work/out" ""

    "$1/$program" /dev/zero "${words[@]}" > "$work/out" 2> "$work/note"
    expect "$program of an endless result" $? 6 "limit|result|0"
    same "$program of an endless result" "$work/out" ""
done

echo '10|20|-1' > "$work/rel"
grades=$'free|1|10 20\ngrade|1|0|0'
"$torgrade" "$work/rel" "$one" > "$work/out" 2> "$work/note"
expect "a grading" $? 0 ""
same "a grading" "$work/out" "$grades"

"$torgrade" /dev/stdin "$one" < "$work/rel" > "$work/out" 2> "$work/note"
expect "relationships on standard input" $? 0 ""
same "relationships on standard input" "$work/out" "$grades"

"$torgrade" "$work/rel" "$one" > /dev/full 2> "$work/note"
expect "a grading on a full device" $? 5 "write-fault"

{ sleep 0.3; "$torgrade" "$work/rel" "$one" 2> "$work/note"; echo $? > "$work/status"; } | true
expect "a grading into a closed pipe" "$(cat "$work/status")" 5 "write-fault"

"$torgrade" "$work/absent" "$one" > "$work/out" 2> "$work/note"
expect "absent relationships" $? 4 "read-fault|0"

"$torgrade" "$samples" "$one" > "$work/out" 2> "$work/note"
expect "a folder for relationships" $? 4 "read-fault|0"

"$torgrade" "$work/rel" "$one" "$samples" > "$work/out" 2> "$work/note"
expect "a folder for a dump that is graded" $? 4 "read-fault|2"
same "a folder for a dump that is graded" "$work/out" ""

# Of longer relationships 2^28 + 1 octets are read.
truncate -s 268435456 "$work/long"
"$torgrade" "$work/long" "$one" > "$work/out" 2> "$work/note"
expect "relationships of 2^28 octets" $? 3 "malformed|0|1|0|rel"

truncate -s 268435457 "$work/long"
"$torgrade" "$work/long" "$work/absent" > "$work/out" 2> "$work/note"
expect "relationships of 2^28 + 1 octets" $? 6 "limit|rel|0"

"$torgrade" /dev/zero "$one" > "$work/out" 2> "$work/note"
expect "endless relationships" $? 6 "limit|rel|0"
same "endless relationships" "$work/out" ""

for words in "" --cones --cycles; do
    "$torrank" $words "$work/rel" > /dev/full 2> "$work/note"
    expect "torrank $words on a full device" $? 5 "write-fault"
done

"$torrank" /dev/stdin < "$work/rel" > "$work/out" 2> "$work/note"
expect "a ranking of standard input" $? 0 ""
same "a ranking of standard input" "$work/out" $'rank|1|10|2|0|0|1\nrank|2|20|1|1|0|0\nranks|2|1|0'

"$torrank" /dev/zero > "$work/out" 2> "$work/note"
expect "a ranking of endless relationships" $? 6 "limit|rel|0"

"$torrank" "$samples" > "$work/out" 2> "$work/note"
expect "a ranking of a folder" $? 4 "read-fault|0"

"$tor" --given "$work/rel" "$one" > /dev/full 2> "$work/note"
expect "a full device for a result under givens" $? 5 "write-fault"

"$tor" --given "$samples" "$one" > "$work/out" 2> "$work/note"
expect "a folder for givens" $? 4 "read-fault|0"
same "a folder for givens" "$work/out" ""

"$tor" --given "$work/rel" "$samples" > "$work/out" 2> "$work/note"
expect "a folder for a dump beside givens" $? 4 "read-fault|1"
same "a folder for a dump beside givens" "$work/out" ""

truncate -s 268435456 "$work/long"
"$tor" --given "$work/long" "$one" > "$work/out" 2> "$work/note"
expect "givens of 2^28 octets" $? 3 "malformed|0|1|0|given"

truncate -s 268435457 "$work/long"
"$tor" --given "$work/long" "$work/absent" > "$work/out" 2> "$work/note"
expect "givens of 2^28 + 1 octets" $? 6 "limit|given|0"

"$tor" --given /dev/zero "$one" > "$work/out" 2> "$work/note"
expect "endless givens" $? 6 "limit|given|0"
same "endless givens" "$work/out" ""

"$tor" --migrate "$samples/three-paths.result.txt" > /dev/full 2> "$work/note"
expect "a full device for a migrated result" $? 5 "write-fault"

"$tor" --migrate "$samples" > "$work/out" 2> "$work/note"
expect "a folder for a result to migrate" $? 4 "read-fault|0"
same "a folder for a result to migrate" "$work/out" ""

result=$samples/three-paths.result.txt
"$tor" --resume "$result" "$one" > /dev/full 2> "$work/note"
expect "a full device for a resumed result" $? 5 "write-fault"

"$tor" --resume "$samples" "$one" > "$work/out" 2> "$work/note"
expect "a folder for a result to take up" $? 4 "read-fault|0"
same "a folder for a result to take up" "$work/out" ""

"$tor" --resume "$result" "$samples" > "$work/out" 2> "$work/note"
expect "a folder for a dump on top of a result" $? 4 "read-fault|1"
same "a folder for a dump on top of a result" "$work/out" ""

"$torleak" "$result" "$one" > /dev/full 2> "$work/note"
expect "leaks on a full device" $? 5 "write-fault"

"$torleak" "$samples" "$one" > "$work/out" 2> "$work/note"
expect "leaks behind a folder" $? 4 "read-fault|0"

"$torleak" "$result" "$samples" > "$work/out" 2> "$work/note"
expect "leaks of a folder" $? 4 "read-fault|1"
same "leaks of a folder" "$work/out" ""

"$torleak" "$result" /dev/stdin < "$one" > "$work/out" 2> "$work/note"
expect "leaks of standard input" $? 0 ""
same "leaks of standard input" "$work/out" $'free|1|10 20\nleaks|0|1|0|0|0'

"$tor" --resume /dev/stdin "$one" < "$result" > "$work/out" 2> "$work/note"
expect "a result to take up on standard input" $? 0 '{"asides":0,"edges":7,"forced":3,"kept":3,"lost":1,"paths":4,"peers":1}'

# What a run writes over the result that it took up stands there whole, since nothing is written before all is read.
"$tor" --resume "$result" "$one" > "$work/first" 2> "$work/note"
cat "$result" > "$work/over"
"$tor" --resume "$work/over" "$one" 2> "$work/note" 1<> "$work/over"
expect "a result that is written over" $? 0 '{"asides":0,"edges":7,"forced":3,"kept":3,"lost":1,"paths":4,"peers":1}'
same "a result that is written over" "$work/over" "$(cat "$work/first")"

# Of a longer result 2^31 + 1 octets are read, so these runs hold 2 GiB each.
if [ "$(awk '/^MemAvailable/ { print $2 }' /proc/meminfo)" -gt 6000000 ]; then
    truncate -s 2147483648 "$work/long"
    "$torcheck" "$work/long" > "$work/out" 2> "$work/note"
    expect "a result of 2^31 octets" $? 1 ""
    same "a result of 2^31 octets" "$work/out" "no|1|0"

    truncate -s 2147483649 "$work/long"
    "$torcheck" "$work/long" "$work/absent" > "$work/out" 2> "$work/note"
    expect "a result of 2^31 + 1 octets" $? 6 "limit|result|0"
    same "a result of 2^31 + 1 octets" "$work/out" ""

    "$torcheck" /dev/zero > "$work/out" 2> "$work/note"
    expect "an endless result" $? 6 "limit|result|0"
    same "an endless result" "$work/out" ""

    "$tor" --resume /dev/zero "$work/absent" > "$work/out" 2> "$work/note"
    expect "an endless result to take up" $? 6 "limit|result|0"
    same "an endless result to take up" "$work/out" ""

    "$tor" --migrate /dev/zero > "$work/out" 2> "$work/note"
    expect "an endless result to migrate" $? 6 "limit|result|0"
    same "an endless result to migrate" "$work/out" ""
else
    echo "left out: results of 2^31 octets, for want of memory"
fi

exit $failed
