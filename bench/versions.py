#!/usr/bin/env python3
"""Texts of version 2 and files of givens with random faults.

    python3 bench/versions.py TOR TORCHECK SECONDS SEED DUMP GIVEN

Makes the result of DUMP under GIVEN, and changes its octets at random. What `TORCHECK` says of each such text has to agree with what
`TOR --migrate` does with it: a bad line is the one that rule 0 names, and what comes out otherwise gets the same verdict. Then GIVEN is
changed at random: `TOR --given` of it tells a bad line and writes nothing, or writes a result to which `TORCHECK` says yes beside DUMP. The
first difference ends it with status 1; at the end stand the number of texts and how often each rule was named.
"""
import os
import random
import subprocess
import sys
import tempfile
import time
from collections import Counter

OCTETS = b"0123456789|: keptlosdgwhyfr\n"
PARTS = [b"g:1 ", b"g:", b"0:", b"given|", b"|", b"\n", b"given|1|2\n"]


def run(*command):
    done = subprocess.run(command, stdout=subprocess.PIPE, stderr=subprocess.PIPE)
    return done.returncode, done.stdout, done.stderr


def written(name, octets):
    with open(name, "wb") as file:
        file.write(octets)
    return name


def changed(rng, text):
    octets = bytearray(text)
    for _ in range(rng.randint(1, 3)):
        if not octets:
            break
        at, way = rng.randrange(len(octets)), rng.random()
        if way < 0.4:
            octets[at] = rng.choice(OCTETS)
        elif way < 0.6:
            del octets[at:at + rng.randint(1, 20)]
        elif way < 0.8:
            octets[at:at] = rng.choice(PARTS)
        else:
            octets = octets[:at]
    return bytes(octets)


def changed_givens(rng, text):
    octets = bytearray(text)
    for _ in range(rng.randint(0, 2)):
        at = rng.randrange(len(octets) + 1)
        octets[at:at + rng.randint(0, 2)] = bytes([rng.choice(b"0123456789|-#\n\r")])
    return bytes(octets)


def compare(tor, torcheck, text, result, migrated):
    """The rule that is named, 0 for a bad line, or None where all are met."""
    written(result, text)
    status, verdict, note = run(torcheck, result)
    fields = verdict.rstrip(b"\n").split(b"|")
    if note or (status, fields[0]) not in [(0, b"yes"), (1, b"no")]:
        sys.exit("torcheck: %d %r %r of %r" % (status, verdict, note, text))
    rule = int(fields[2]) if status else None
    status, out, note = run(tor, "--migrate", result)
    if rule == 0:
        wanted = 3, b"", b"malformed|0|" + fields[1] + b"|0|result\n"
        if (status, out, note) != wanted:
            sys.exit("migrate: %d %r of %r" % (status, note, text))
    elif (status, note) != (0, b"") or run(torcheck, written(migrated, out))[1] != verdict:
        sys.exit("another verdict behind migrate: %r of %r" % (verdict, text))
    return rule


def compare_givens(tor, torcheck, givens, dump, known, result):
    status, out, note = run(tor, "--given", written(known, givens), dump)
    if status == 3:
        if out or not note.startswith(b"malformed|0|") or not note.endswith(b"|0|given\n"):
            sys.exit("given: %r %r of %r" % (out, note, givens))
    elif status or run(torcheck, written(result, out), dump)[1] != b"yes\n":
        sys.exit("given: %d %r of %r" % (status, note, givens))


def main():
    tor, torcheck, seconds, seed, dump, given = sys.argv[1:]
    rng, end = random.Random(int(seed)), time.time() + float(seconds)
    text = run(tor, "--given", given, dump)[1]
    with open(given, "rb") as file:
        givens = file.read()
    rules = Counter()
    with tempfile.TemporaryDirectory() as folder:
        result, migrated, known = (os.path.join(folder, name) for name in ("result", "migrated", "known"))
        while time.time() < end:
            rules[compare(tor, torcheck, changed(rng, text), result, migrated)] += 1
            compare_givens(tor, torcheck, changed_givens(rng, givens), dump, known, result)
    named = ", ".join("rule %d %d" % (rule, rules[rule]) for rule in sorted(rule for rule in rules if rule is not None))
    print("%d texts, none different: yes %d, %s" % (sum(rules.values()), rules[None], named))


if __name__ == "__main__":
    main()
