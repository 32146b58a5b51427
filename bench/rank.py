#!/usr/bin/env python3
"""The ranks, cones and cycles of random files of relationships, beside a search from each AS.

    python3 bench/rank.py TORRANK SEED COUNT
    python3 bench/rank.py TORRANK FILE

Makes COUNT files of lines provider|customer|-1 and peer|peer|0 over two to fourteen ASes, with comments, relationships told twice, and now
and then a bad line; or takes a file, for instance what `tor --serial1` writes. What TORRANK writes, alone, with `--cones` and with
`--cycles`, its statuses and its notes have to be what this program finds by going over the customers of the customers of each AS. The
first difference ends it with status 1.
"""
import os
import random
import re
import subprocess
import sys
import tempfile

LINE = re.compile(rb"(0|[1-9][0-9]*)\|(0|[1-9][0-9]*)\|(-1|0)")


def read(octets):
    """The lines of each two ASes, in order, where they are told first; or the number of the first bad line."""
    said = {}
    lines = octets.split(b"\n")
    if lines[-1] == b"":
        lines.pop()
    for number, line in enumerate(lines, 1):
        if line.startswith(b"#"):
            continue
        match = LINE.fullmatch(line)
        if not match:
            return number
        first, second, transit = int(match[1]), int(match[2]), match[3] == b"-1"
        if first == second or max(first, second) >= 2**32:
            return number
        pair = frozenset((first, second))
        old = said.setdefault(pair, (first, second, transit))
        if old[2] != transit or transit and old[0] != first:
            return number
    return list(said.values())


def cones_of(rel):
    below = {}
    for first, second, transit in rel:
        below.setdefault(first, set())
        below.setdefault(second, set())
        if transit:
            below[first].add(second)
    cones = {}
    for start in sorted(below):
        met, left = {start}, [start]
        while left:
            for under in below[left.pop()]:
                if under not in met:
                    met.add(under)
                    left.append(under)
        cones[start] = met
    return cones


def neighbours_of(rel):
    """How many providers, peers and customers each AS has."""
    counts = {}
    for first, second, transit in rel:
        for number, kind in ((first, 2 if transit else 1), (second, 0 if transit else 1)):
            counts.setdefault(number, [0, 0, 0])[kind] += 1
    return counts


def ranks_text(rel, cones):
    sizes = sorted(map(len, cones.values()), reverse=True)
    place_of = {size: 1 + sizes.index(size) for size in set(sizes)}
    counts = neighbours_of(rel)
    out = []
    for number in sorted(cones, key=lambda number: (-len(cones[number]), number)):
        size = len(cones[number])
        out.append("rank|%d|%d|%d|%d|%d|%d\n" % (place_of[size], number, size, *counts[number]))
    transits = sum(transit for _, _, transit in rel)
    out.append("ranks|%d|%d|%d\n" % (len(cones), transits, len(rel) - transits))
    return "".join(out)


def cones_text(cones):
    return "".join("%d %s\n" % (number, " ".join(map(str, sorted(cones[number])))) for number in sorted(cones))


def cycles_text(rel, cones):
    out, told, classes, ases, lines = [], set(), 0, 0, 0
    for number in sorted(cones):
        cycle = sorted(other for other in cones[number] if number in cones[other])
        if len(cycle) < 2 or number in told:
            continue
        told.update(cycle)
        classes += 1
        ases += len(cycle)
        out.append("cycle|%d|%s\n" % (len(cycle), " ".join(map(str, cycle))))
        members = set(cycle)
        for first, second, transit in rel:
            if transit and first in members and second in members:
                lines += 1
                out.append("inside|%d|%d\n" % (first, second))
    out.append("cycles|%d|%d|%d\n" % (classes, ases, lines))
    return "".join(out)


def wanted(octets, words):
    """The status, out and err."""
    rel = read(octets)
    if isinstance(rel, int):
        return 3, "", "malformed|0|%d|0|rel\n" % rel
    cones = cones_of(rel)
    if words == ["--cones"]:
        return 0, cones_text(cones), ""
    if words == ["--cycles"]:
        return 0, cycles_text(rel, cones), ""
    return 0, ranks_text(rel, cones), ""


def drawn(rng):
    """The octets of a random file."""
    ases = rng.sample([0, 1, 2, 3, 5, 7, 10, 64, 100, 999, 65536, 4200000000, 4294967294, 4294967295], rng.randint(2, 14))
    lines, said = [], {}
    for _ in range(rng.choice([0, 1, 3, 6, 12, 25, 60])):
        first, second = rng.sample(ases, 2)
        pair = frozenset((first, second))
        if pair in said:
            first, second, kind = said[pair]
            if kind == 0 and rng.random() < 0.5:
                first, second = second, first
        else:
            kind = 0 if rng.random() < 0.3 else -1
            if rng.random() < 0.5 and kind == -1 and ases.index(first) > ases.index(second):
                first, second = second, first
            said[pair] = (first, second, kind)
        lines.append("%d|%d|%d" % (first, second, kind))
        if rng.random() < 0.1:
            lines.append("# %d|7777|-1" % first)
    if rng.random() < 0.05:
        bad = ["", "1|1|-1", "1|2|1", "1|2|-1 ", "01|2|0", "1|4294967296|0", "x"]
        lines.insert(rng.randint(0, len(lines)), rng.choice(bad))
    end = "\n" if lines and rng.random() < 0.9 else ""
    return ("\n".join(lines) + end).encode()


def differs(torrank, name, octets):
    for words in ([], ["--cones"], ["--cycles"]):
        run = subprocess.run([torrank, *words, name], capture_output=True, check=False)
        got = run.returncode, run.stdout.decode(), run.stderr.decode()
        want = wanted(octets, words)
        if got != want:
            print("differs: %s %s\n%s\ngot %s\nwanted %s" % (torrank, words, octets.decode()[:2000], str(got)[:2000], str(want)[:2000]))
            return True
    return False


def main():
    torrank = sys.argv[1]
    if len(sys.argv) == 3:
        with open(sys.argv[2], "rb") as file:
            return int(differs(torrank, sys.argv[2], file.read()))
    rng = random.Random(int(sys.argv[2]))
    with tempfile.TemporaryDirectory() as folder:
        name = os.path.join(folder, "rel.txt")
        for _ in range(int(sys.argv[3])):
            octets = drawn(rng)
            with open(name, "wb") as file:
                file.write(octets)
            if differs(torrank, name, octets):
                return 1
    print("%s files agree" % sys.argv[3])
    return 0


if __name__ == "__main__":
    sys.exit(main())
