#!/usr/bin/env python3
"""Compares `tor --list` of two builds on dumps with random faults: exit status, text, and first line of the note.

    bench/mutate.py SEED SECONDS TOR OTHER DUMP ..

OTHER is another build, such as that of an earlier commit; any program will do that takes `--list DUMP` as docs/FORMATS.md says. A dump on
which they differ is kept beside the temporary files, and named.
"""
import os
import random
import subprocess
import sys
import tempfile
import time
from collections import Counter

TELLING = [0, 1, 2, 3, 4, 5, 12, 13, 17, 18, 255]
MOST = 8000  # octets of a dump that are taken


def mutate(octets, chance):
    """One to five octets changed, taken out or put in, or the end cut off; now and then nothing."""
    octets = bytearray(octets)
    for _ in range(chance.choice([0, 1, 1, 2, 3, 5])):
        if not octets:
            break
        at = chance.randrange(len(octets))
        kind = chance.random()
        if kind < 0.55:
            octets[at] = chance.choice(TELLING + [chance.randrange(256)])
        elif kind < 0.7:
            del octets[at : at + chance.randrange(1, 5)]
        elif kind < 0.8:
            octets[at:at] = bytes(chance.randrange(256) for _ in range(chance.randrange(1, 4)))
        elif kind < 0.9:
            del octets[at:]
        else:
            octets[at] = (octets[at] + chance.choice([1, 255])) % 256
    return bytes(octets)


def answer(program, words):
    done = subprocess.run([program, *words], capture_output=True)
    return done.returncode, done.stdout, done.stderr.split(b"\n")[0]


def main():
    seed, seconds, tor, other, *dumps = sys.argv[1:]
    chance = random.Random(int(seed))
    fronts = [open(dump, "rb").read()[:MOST] for dump in dumps]
    folder = tempfile.mkdtemp()
    first, second = os.path.join(folder, "first"), os.path.join(folder, "second")
    statuses, different = Counter(), 0
    end = time.time() + float(seconds)
    while time.time() < end:
        for path, octets in ((first, chance.choice(fronts)), (second, mutate(chance.choice(fronts), chance))):
            with open(path, "wb") as file:
                file.write(octets)
        most = str(chance.choice([1, 2, 3, 5, 8, 1000]))
        words = ["--list", "--as-sets", chance.choice(["cut", "skip"]), "--max-paths", most]
        words += chance.choice([[second], [first, second]])
        ours, theirs = answer(tor, words), answer(other, words)
        statuses[ours[0]] += 1
        if ours != theirs:
            different += 1
            kept = os.path.join(folder, f"different-{different}")
            os.rename(second, kept)
            print(kept, words, ours[0], ours[2], theirs[0], theirs[2])
    print(f"{sum(statuses.values())} dumps, {different} different, by status: {dict(statuses)}")


main()
