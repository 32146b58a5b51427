"""Ties beside all orientations of small random lists of paths.

ties.py TOR SEED COUNT

Makes COUNT dumps of some paths over three to eight ASes, half of them with paths around a ring, and compares what `TOR --ties DUMP`
prints with what going over all orientations of their edges finds: which paths are kept, which edges these leave open, and which of the open
edges go with each other, or against each other, in all orientations that serve. The first difference ends it with status 1. At the end it
prints how many edges were open, how many of them were tied to an earlier one, and how many of these against it.
"""

import itertools
import os
import random
import struct
import subprocess
import sys
import tempfile

MOST_EDGES = 12
NUMBERS = [7, 10, 20, 30, 40, 50, 60, 70, 3356, 15169, 131072, 4199999999]


def record(kind, subtype, body):
    return struct.pack(">IHHI", 0, kind, subtype, len(body)) + body


def dump_of(paths):
    """A peer table, and a prefix with one route for each path."""
    octets = record(13, 1, struct.pack(">IHH", 0, 0, 1) + struct.pack(">BIII", 2, 0, 0, 1))
    for place, path in enumerate(paths):
        segment = struct.pack(">BB", 2, len(path)) + b"".join(struct.pack(">I", number) for number in path)
        attributes = struct.pack(">BBB", 0x40, 2, len(segment)) + segment
        entry = struct.pack(">HIH", 0, 0, len(attributes)) + attributes
        octets += record(13, 2, struct.pack(">IBH", place, 0, 1) + entry)
    return octets


def steps(path):
    return list(zip(path, path[1:]))


def edges_of(paths):
    return list(dict.fromkeys((min(step), max(step)) for path in paths for step in steps(path)))


def is_valley_free(path, providers):
    """No step up to a provider behind a step down to a customer."""
    ups = [providers[min(step), max(step)] == step[1] for step in steps(path)]
    return ups == sorted(ups, reverse=True)


def serving_all(paths):
    """The orientations that serve the kept paths, each as the provider of each edge."""
    edges = edges_of(paths)
    serving = [dict(zip(edges, ends)) for ends in itertools.product(*edges)]
    for path in paths:
        serving = [providers for providers in serving if is_valley_free(path, providers)] or serving
    return serving


def ties_of(paths):
    """The open edges, each with its class, and with whether it goes as the first edge of that."""
    serving = serving_all(paths)
    lows = {edge: [providers[edge] == edge[0] for providers in serving] for edge in edges_of(paths)}
    ties, firsts = [], []
    for edge, low in lows.items():
        if all(low) or not any(low):
            continue
        high = [not is_low for is_low in low]
        place = next((place for place, first in enumerate(firsts) if lows[first] in (low, high)), len(firsts))
        if place == len(firsts):
            firsts.append(edge)
        ties.append((edge, place + 1, lows[firsts[place]] == low))
    return ties


def text_of(ties):
    lines = [f"tie|{low}|{high}|{number}|{'with' if goes_with else 'against'}\n" for (low, high), number, goes_with in ties]
    return "".join(lines) + f"ties|{len(ties)}|{max((number for _, number, _ in ties), default=0)}\n"


def around(numbers):
    """Three ASes from each place of a ring on: the edges of the ring are tied to each other."""
    return [[numbers[place - 2], numbers[place - 1], numbers[place]] for place in range(len(numbers))]


def random_paths():
    while True:
        numbers = random.sample(NUMBERS, random.randint(3, 8))
        longest = min(len(numbers), 6)
        paths = [random.sample(numbers, random.randint(2, longest)) for _ in range(random.randint(1, 8))]
        if random.random() < 0.5:
            paths += around(random.sample(numbers, random.randint(3, longest)))
            random.shuffle(paths)
        if random.random() < 0.3:
            paths.append(random.choice(paths))
        if len(edges_of(paths)) <= MOST_EDGES:
            return paths


def main():
    program, seed, count = sys.argv[1], int(sys.argv[2]), int(sys.argv[3])
    random.seed(seed)
    edges, tied, against = 0, 0, 0
    with tempfile.TemporaryDirectory() as room:
        dump = os.path.join(room, "dump.mrt")
        for _ in range(count):
            paths = random_paths()
            ties = ties_of(paths)
            with open(dump, "wb") as file:
                file.write(dump_of(paths))
            ran = subprocess.run([program, "--ties", dump], capture_output=True)
            if (ran.stdout.decode(), ran.stderr, ran.returncode) != (text_of(ties), b"", 0):
                print("different:", paths, text_of(ties), ran.stdout.decode(), ran.stderr, ran.returncode, sep="\n")
                sys.exit(1)
            edges += len(ties)
            tied += len(ties) - max((number for _, number, _ in ties), default=0)
            against += sum(not goes_with for _, _, goes_with in ties)
    print(f"{count} runs, none different: {edges} open edges, {tied} tied to an earlier one, {against} of them against it")


main()
