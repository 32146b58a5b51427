"""What would settle most, beside all orientations of small random lists of paths.

ask.py TOR SEED COUNT

Makes COUNT dumps of some paths over three to eight ASes, half of them with paths around a ring, and for a third of them some known
relationships, a few of these peerings. It compares what `TOR --ask DUMP`, with `--given FILE` where something is known, prints with what
going over all orientations of their edges finds: which paths are kept, which edges these leave open, and of each open edge how many open
edges all orientations agree on that have its lower number as the provider, and how many that have the higher. For each line it also runs
`TOR --given` with one relationship more: the same paths have to be kept, and so many edges more be forced. The first difference ends it
with status 1. At the end it prints how many edges were open, and how many lines had a number above 1.
"""

import itertools
import os
import random
import struct
import subprocess
import sys
import tempfile

MOST_EDGES = 12
NUMBERS = [7, 10, 20, 30, 40, 50, 60, 70, 3356, 15169, 131072, 4199999999]


def record(kind, subtype, body):
    return struct.pack(">IHHI", 0, kind, subtype, len(body)) + body


def dump_of(paths):
    """A peer table, and a prefix with one route for each path."""
    octets = record(13, 1, struct.pack(">IHH", 0, 0, 1) + struct.pack(">BIII", 2, 0, 0, 1))
    for place, path in enumerate(paths):
        segment = struct.pack(">BB", 2, len(path)) + b"".join(struct.pack(">I", number) for number in path)
        attributes = struct.pack(">BBB", 0x40, 2, len(segment)) + segment
        entry = struct.pack(">HIH", 0, 0, len(attributes)) + attributes
        octets += record(13, 2, struct.pack(">IBH", place, 0, 1) + entry)
    return octets


def steps(path):
    return list(zip(path, path[1:]))


def edges_of(paths):
    return list(dict.fromkeys((min(step), max(step)) for path in paths for step in steps(path)))


def is_valley_free(path, providers):
    """No step up to a provider behind a step down to a customer."""
    ups = [providers[min(step), max(step)] == step[1] for step in steps(path)]
    return ups == sorted(ups, reverse=True)


def serving_all(paths, contracts):
    """The orientations that agree with the contracts and serve the kept paths, each as the provider of each edge."""
    edges = edges_of(paths)
    serving = [dict(zip(edges, ends)) for ends in itertools.product(*edges)]
    for provider, customer in contracts:
        edge = (min(provider, customer), max(provider, customer))
        if edge in edges:
            serving = [providers for providers in serving if providers[edge] == provider]
    for path in paths:
        serving = [providers for providers in serving if is_valley_free(path, providers)] or serving
    return serving


def agreed(serving, edges):
    """Those of the edges on which all these orientations agree."""
    return [edge for edge in edges if len({providers[edge] for providers in serving}) == 1]


def asks_of(paths, contracts):
    """The lines of the open edges: each edge, and how many open edges either provider forces."""
    serving = serving_all(paths, contracts)
    edges = edges_of(paths)
    forced = set(agreed(serving, edges))
    opens = [edge for edge in edges if edge not in forced]
    asks = []
    for edge in opens:
        numbers = [len(agreed([providers for providers in serving if providers[edge] == end], opens)) for end in edge]
        asks.append((edge, *numbers))
    return sorted(asks, key=lambda ask: (-min(ask[1:]), -sum(ask[1:])))


def text_of(asks):
    lines = [f"ask|{low}|{high}|{if_low}|{if_high}\n" for (low, high), if_low, if_high in asks]
    return "".join(lines) + f"asks|{len(asks)}\n"


def around(numbers):
    """Three ASes from each place of a ring on: the edges of the ring are tied to each other."""
    return [[numbers[place - 2], numbers[place - 1], numbers[place]] for place in range(len(numbers))]


def random_paths():
    while True:
        numbers = random.sample(NUMBERS, random.randint(3, 8))
        longest = min(len(numbers), 6)
        paths = [random.sample(numbers, random.randint(2, longest)) for _ in range(random.randint(1, 8))]
        if random.random() < 0.5:
            paths += around(random.sample(numbers, random.randint(3, longest)))
            random.shuffle(paths)
        if random.random() < 0.3:
            paths.append(random.choice(paths))
        if len(edges_of(paths)) <= MOST_EDGES:
            return list(map(list, dict.fromkeys(map(tuple, paths))))


def random_known(paths):
    """For a third of the lists up to three known relationships, of which one in four is a peering: lines of serial-1."""
    if random.random() < 2 / 3:
        return []
    pairs = random.sample(edges_of(paths), min(len(edges_of(paths)), random.randint(1, 3)))
    known = []
    for low, high in pairs:
        first, second = random.choice([(low, high), (high, low)])
        known.append((first, second, 0 if random.random() < 0.25 else -1))
    return known


def run(program, words, dump):
    return subprocess.run([program, *words, dump], capture_output=True)


def counts_in(result):
    """The kept paths of a result, and its forced edges."""
    lines = result.decode().splitlines()
    kept = [place for place, line in enumerate(line for line in lines if line.split("|")[0] in ("kept", "lost")) if line.startswith("kept|")]
    edges = [line.split("|") for line in lines if line.startswith("edge|")]
    return kept, {(fields[1], fields[2]) for fields in edges if "forced" in fields}


def write_known(name, known):
    with open(name, "w", encoding="ascii") as file:
        file.writelines(f"{first}|{second}|{kind}\n" for first, second, kind in known)


def stop(*what):
    print("different:", *what, sep="\n")
    sys.exit(1)


def check_more(program, dump, room, paths, known, asks):
    """With one relationship more the same paths are kept, and the numbers of the lines are forced more."""
    given = os.path.join(room, "known")
    write_known(given, known)
    before = run(program, ["--given", given], dump)
    kept, forced = counts_in(before.stdout)
    for (low, high), if_low, if_high in asks:
        for line, number in (((low, high, -1), if_low), ((high, low, -1), if_high)):
            rest = [one for one in known if {one[0], one[1]} != {low, high}]
            write_known(given, [*rest, line])
            after = run(program, ["--given", given], dump)
            kept_then, forced_then = counts_in(after.stdout)
            if kept_then != kept or not forced <= forced_then or len(forced_then - forced) != number:
                stop(paths, known, line, number, len(forced_then - forced), kept, kept_then)


def main():
    program, seed, count = sys.argv[1], int(sys.argv[2]), int(sys.argv[3])
    random.seed(seed)
    opens, more = 0, 0
    with tempfile.TemporaryDirectory() as room:
        dump, given = os.path.join(room, "dump.mrt"), os.path.join(room, "given")
        for _ in range(count):
            paths = random_paths()
            known = random_known(paths)
            asks = asks_of(paths, [(first, second) for first, second, kind in known if kind == -1])
            with open(dump, "wb") as file:
                file.write(dump_of(paths))
            write_known(given, known)
            ran = run(program, ["--ask", *(["--given", given] if known else [])], dump)
            if (ran.stdout.decode(), ran.stderr, ran.returncode) != (text_of(asks), b"", 0):
                stop(paths, known, text_of(asks), ran.stdout.decode(), ran.stderr, ran.returncode)
            check_more(program, dump, room, paths, known, asks)
            opens += len(asks)
            more += sum(max(ask[1:]) > 1 for ask in asks)
    print(f"{count} runs, none different: {opens} open edges, {more} of them force others")


main()
