#!/usr/bin/env bash
# What the programs do when memory is refused. Each command is run with its first allocation refused, then with its second, and so on
# until none is left to refuse: once that allocation alone, and once with all behind it. Such a run has to end with status 7, nothing on
# standard output, and the note `no-memory`, which may be missing only as long as the words aren't held. A run to which none was refused has
# to be as one of its own, since how many allocations there are depends on random keys. Each line says the command, how many of its
# allocations were refused and whether all was as it should be; the script ends with 1 if it was not.
#   bench/memory.sh BIN SAMPLES
# BIN is the folder of the programs.
set -uo pipefail
tor=$1/tor torcheck=$1/torcheck torgrade=$1/torgrade torleak=$1/torleak torrank=$1/torrank torwhy=$1/torwhy
torview=$1/torview samples=$2
work=$(mktemp -d)
trap 'rm -rf "$work"' EXIT
failed=0

cat > "$work/refuse.c" <<'END'
// Refuses the allocations of a program from the number REFUSE_FROM to REFUSE_TO, from 1. Those that the C library makes for itself are let
// through and not counted: only a call out of the program's own code is. An octet goes to the file REFUSED for each that is refused.
#define _GNU_SOURCE
#include <errno.h>
#include <fcntl.h>
#include <link.h>
#include <stdint.h>
#include <stdlib.h>
#include <unistd.h>

void *__libc_malloc(size_t);
void *__libc_calloc(size_t, size_t);
void *__libc_realloc(void *, size_t);
void *__libc_memalign(size_t, size_t);

static uintptr_t code_begin, code_end;
static unsigned long count, from, to;
static int told;

static int find_code(struct dl_phdr_info *program, size_t size, void *unused) {
    for (int i = 0; i < program->dlpi_phnum; i++) {
        const ElfW(Phdr) *part = &program->dlpi_phdr[i];
        if (part->p_type == PT_LOAD && part->p_flags & PF_X) {
            code_begin = program->dlpi_addr + part->p_vaddr;
            code_end = code_begin + part->p_memsz;
        }
    }
    return 1; // the program comes first, and the libraries behind it
}

__attribute__((constructor)) static void begin(void) {
    from = strtoul(getenv("REFUSE_FROM"), NULL, 10);
    to = strtoul(getenv("REFUSE_TO"), NULL, 10);
    told = open(getenv("REFUSED"), O_WRONLY | O_APPEND | O_CLOEXEC);
    dl_iterate_phdr(find_code, NULL);
}

static int is_refused(void *caller) {
    if ((uintptr_t)caller < code_begin || (uintptr_t)caller >= code_end) return 0;
    count++;
    if (count < from || count > to) return 0;
    if (write(told, "x", 1) != 1) _exit(99);
    return 1;
}

#define CALLER __builtin_return_address(0)

void *malloc(size_t size) {
    if (is_refused(CALLER)) return errno = ENOMEM, NULL;
    return __libc_malloc(size);
}

void *calloc(size_t items, size_t size) {
    if (is_refused(CALLER)) return errno = ENOMEM, NULL;
    return __libc_calloc(items, size);
}

void *realloc(void *block, size_t size) {
    if (is_refused(CALLER)) return errno = ENOMEM, NULL;
    return __libc_realloc(block, size);
}

void *aligned_alloc(size_t alignment, size_t size) {
    if (is_refused(CALLER)) return errno = ENOMEM, NULL;
    return __libc_memalign(alignment, size);
}

int posix_memalign(void **block, size_t alignment, size_t size) {
    if (is_refused(CALLER)) return ENOMEM;
    *block = __libc_memalign(alignment, size);
    return *block ? 0 : ENOMEM;
}
END
cc -O2 -shared -fPIC -o "$work/refuse.so" "$work/refuse.c" || exit 1

# Runs a command with the allocations of these numbers refused.
run() { # FROM TO COMMAND ..
    local from=$1 to=$2
    shift 2
    : > "$work/refused"
    LD_PRELOAD=$work/refuse.so REFUSE_FROM=$from REFUSE_TO=$to REFUSED=$work/refused "$@" > "$work/out" 2> "$work/note"
    status=$?
}

# Looks at a run. Where nothing was refused all has to be as in the command's own run. Else memory ran out, and once a run has written that
# note, all that follow have to.
look() { # WHICH
    local wrong= note
    note=$(< "$work/note")
    if [ ! -s "$work/refused" ]; then
        if [ $status != $own ] || ! cmp -s "$work/out" "$work/own-out" || ! cmp -s "$work/note" "$work/own-note"; then
            wrong=", with none refused, status $status for $own or another text"
        fi
    else
        if [ "$note" = no-memory ]; then held=yes; fi
        if [ $status != 7 ]; then wrong+=", status $status"; fi
        if [ -s "$work/out" ]; then wrong+=", output '$(head -c 40 "$work/out" | head -1)'"; fi
        if [ "$note" != no-memory ] && [ -n "$held$note" ]; then wrong+=", note '${note:0:40}'"; fi
    fi
    if [ -n "$wrong" ]; then
        differing=$((differing + 1))
        if [ -z "$first" ]; then first="first $1$wrong"; fi
    fi
}

# Makes the runs of a command, with each allocation refused in turn, or each so many, up to a run that has none of that number.
refuse() { # NAME STEP COMMAND ..
    local name=$1 step=$2 number=1 count=0 held= differing=0 first=
    shift 2
    "$@" > "$work/own-out" 2> "$work/own-note"
    local own=$?
    run $number $number "$@"
    look "number $number alone"
    while [ -s "$work/refused" ]; do
        run $number 4000000000 "$@"
        look "number $number and all behind it"
        count=$((count + 1))
        number=$((number + step))
        run $number $number "$@"
        look "number $number alone"
    done
    if [ $count = 0 ]; then first+=" none was there to refuse"; fi
    if [ -z "$first" ]; then
        echo "ok: $name: $count allocations refused"
    else
        echo "FAILED: $name: $count allocations refused, $differing runs not as they should be: $first"
        failed=1
    fi
}

dump=$samples/three-paths.mrt
head -c 60 "$samples/two-paths.mrt" > "$work/cut.mrt"
printf '20|10|-1\n20|30|0\n' > "$work/rel"
printf '20|10|-1\n10|20\n' > "$work/bad"
printf '20|10|-1\n10|30|-1\n30|20|-1\n30|40|0\n' > "$work/circle"
printf '# all but the first bind\n7|8|-1\n10|20|-1\n30|40|-1\n' > "$work/given"
sed '16s/forced/open/' "$samples/three-paths.result.txt" > "$work/changed.txt"
"$tor" --given "$work/given" "$dump" > "$work/under-givens.txt" 2> "$work/note"

refuse "a result" 1 "$tor" "$dump"
refuse "a list" 1 "$tor" --list "$dump"
refuse "a list of two dumps" 1 "$tor" --list --as-sets skip "$dump" "$samples/one-edge.mrt"
refuse "a survey" 1 "$tor" --survey "$dump"
refuse "ties" 1 "$tor" --ties "$dump"
refuse "lines of serial-1" 1 "$tor" --serial1 "$dump"
refuse "a result under givens" 1 "$tor" --given "$work/given" "$dump"
refuse "ties under givens" 1 "$tor" --ties --given "$work/given" "$dump"
refuse "a bad line of the givens" 1 "$tor" --given "$work/bad" "$dump"
refuse "a migrated result" 1 "$tor" --migrate "$samples/three-paths.result.txt"
refuse "a migrated result with a bad line" 1 "$tor" --migrate "$work/rel"
refuse "a resumed result" 1 "$tor" --resume "$samples/two-paths.result.txt" "$dump"
refuse "a resumed result under givens" 1 "$tor" --resume "$work/under-givens.txt" "$samples/ring.mrt"
refuse "a result to take up that breaks a rule" 1 "$tor" --resume "$work/changed.txt" "$dump"
refuse "a result to take up with too many paths" 1 "$tor" --resume "$samples/three-paths.result.txt" --max-paths 2 "$dump"
refuse "a sample, each 97th" 97 "$tor" --sample 0
refuse "a cut dump" 1 "$tor" "$work/cut.mrt"
refuse "an absent dump" 1 "$tor" "$work/absent"
refuse "no words" 1 "$tor"
refuse "a check" 1 "$torcheck" "$samples/three-paths.result.txt"
refuse "a check beside the dump" 1 "$torcheck" "$samples/three-paths.result.txt" "$dump"
refuse "a check of a result with givens" 1 "$torcheck" "$work/under-givens.txt" "$dump"
refuse "a check of a changed result" 1 "$torcheck" "$work/changed.txt" "$dump"
refuse "a grading" 1 "$torgrade" "$work/rel" "$dump"
refuse "a grading and a cone" 1 "$torgrade" --cone 20 "$work/rel" "$dump"
refuse "a bad line of relationships" 1 "$torgrade" "$work/bad" "$dump"
refuse "leaks" 1 "$torleak" "$samples/three-paths.result.txt" "$dump"
refuse "leaks behind a result with givens" 1 "$torleak" "$work/under-givens.txt" "$samples/ring.mrt"
refuse "leaks behind a changed result" 1 "$torleak" "$work/changed.txt" "$dump"
refuse "ranks" 1 "$torrank" "$work/circle"
refuse "cones" 1 "$torrank" --cones "$work/circle"
refuse "cycles" 1 "$torrank" --cycles "$work/circle"
refuse "ranks of a bad line" 1 "$torrank" "$work/bad"
refuse "a telling of a forced edge" 1 "$torwhy" "$samples/three-paths.result.txt" 10 20
refuse "a telling of an open edge" 1 "$torwhy" "$samples/three-paths.result.txt" 20 30
refuse "a telling of a path" 1 "$torwhy" --path 3 "$samples/three-paths.result.txt"
refuse "a telling of neighbours" 1 "$torwhy" "$samples/three-paths.result.txt" AS20
refuse "a telling of an edge that isn't there" 1 "$torwhy" "$samples/three-paths.result.txt" 10 30
refuse "a telling of a changed result" 1 "$torwhy" "$work/changed.txt" 10 20
refuse "a picture" 1 "$torview" "$samples/three-paths.result.txt" 20
refuse "a picture of three generations of providers" 1 "$torview" --depth 3 "$samples/three-paths.result.txt" 60
refuse "a picture of an AS that isn't there" 1 "$torview" "$samples/three-paths.result.txt" 70
refuse "a picture of a changed result" 1 "$torview" "$work/changed.txt" 20

exit $failed
