"""Time and memory on files that are made to be slow.

hostile.py TOR TORCHECK [RUNS]

TOR and TORCHECK are the programs `tor` and `torcheck`; `-` in place of one leaves its rows out. Each row is run RUNS times (3), and says
the least processor time and the greatest peak memory. A row of TORCHECK also says how the memory compares with the file. A row of the list
says how the time compares with that on as many random paths. Results are made of two dumps, the second twice the size of the first: a row
says how much longer TOR takes for that one, how long its texts are and how many open lines they have. A row of asks is of two dumps likewise,
and says too how long the result takes. It takes a minute. It can't tell of less memory than some 14 MiB, which this script has itself.
"""

import os
import random
import struct
import subprocess
import sys
import tempfile

CAUSES = ["nopath", "badsegments", "confed", "sets", "reserved", "loop", "short"]
HEAD = "tor|1\nsets|cut\nratio|60\n" + "".join(f"aside|{cause}|0\n" for cause in CAUSES)

# The mixing of a table of paths, before a key goes into it: `mixed` in crates/path_table/specs/Chains.antt.
MULTIPLIER = 11400714819323198485
INVERSE = pow(MULTIPLIER, -1, 2**64)
LOW = 2**32 - 1


def result(paths, opens):
    """A result over paths of rising numbers, but for the last number of some: the greater end of each edge is its provider."""
    supports = {}
    for path in paths:
        for a, b in zip(path, path[1:]):
            edge = min(a, b), max(a, b)
            supports[edge] = supports.get(edge, 0) + 1
    lines = [f"kept|1|{' '.join(map(str, path))}\n" for path in paths]
    lines += [f"edge|{low}|{high}|high|open|{times}\n" for (low, high), times in supports.items()]
    lines += [f"open|{over}|{under}\n" for over, under in opens]
    return HEAD + "".join(lines) + f"end|{len(paths)}|0|{len(supports)}|0|0\n"


def chain(lines):
    """One path that climbs, and an open line for each of its edges, from the top down: each leads along all that come before it."""
    path = list(range(1000001, 1000002 + lines))
    return result([path], list(zip(path, path[1:]))[::-1])


def before_a_chain(lines, arcs):
    """Open lines that all lead along one chain."""
    path = list(range(1000001, 1000003 + arcs))
    starts = range(100001, 100001 + lines)
    return result([path] + [[start, *path[:2]] for start in starts], [(start, path[0]) for start in starts])


def each_for_itself(lines, arcs):
    """Open lines that lead along one chain, each of which rules out all the others."""
    path = list(range(1000001, 1000003 + arcs))
    paths, opens = [path], [(path[0], path[1])]
    for place in range(1, lines + 1):
        start = 100000 + place
        paths += [[start, path[place], path[place + 1]], [start, path[place], path[place - 1]]]
        opens.append((start, path[place]))
    return result(paths, opens)


def by_turns(lines, arcs):
    """Open lines of two kinds by turns. Each kind leads along a chain of its own, whose top rules out that of the other."""
    chains = [list(range(base, base + arcs + 1)) + [4000000] for base in (1000001, 2000001)]
    paths, opens = chains + [[chains[0][-2], 4000000, chains[1][-2]]], []
    for place in range(lines):
        path = chains[place % 2]
        paths.append([100001 + place, path[0], path[1]])
        opens.append((100001 + place, path[0]))
    return result(paths, opens)


def from_both_ends(lines, arcs):
    """Open lines of two kinds by turns: one leads along a chain, and the next rules out the top of it."""
    path = list(range(1000001, 1000002 + arcs))
    paths, opens = [path], []
    for place in range(lines):
        end = path[:-3:-1] if place % 2 else path[:2]
        paths.append([100001 + place, *end])
        opens.append((100001 + place, end[0]))
    return result(paths, opens)


def first_within(factor, modulus, low, high):
    """The least x with low <= factor * x % modulus <= high, if there is one."""
    if low == 0:
        return 0
    if factor == 0:
        return None
    if 2 * factor > modulus:
        factor, low, high = modulus - factor, modulus - high, modulus - low
    x = -(-low // factor)
    if factor * x <= high:
        return x
    turns = first_within(modulus % factor, factor, -high % factor, -low % factor)
    return None if turns is None else -(-(low + modulus * turns) // factor)


def mixed(hash, number):
    product = (hash ^ number) * MULTIPLIER % 2**64
    return product ^ product >> 32


def before_mixing(hash):
    """What was mixed, the hash and the number joined, where this came out."""
    return (hash ^ hash >> 32) * INVERSE % 2**64


def pair_of_hash(hash):
    """Two numbers with this hash under the start 0, if there are any."""
    joined = before_mixing(hash)
    start = joined >> 32 << 32
    first = first_within(MULTIPLIER, 2**64, start, start + LOW)
    if first is None or first > LOW:
        return None
    return [first, (joined ^ mixed(0, first)) & LOW]


def is_clean(path):
    reserved = (0, 23456)
    within = all(n not in reserved and not 64496 <= n <= 65551 and n < 4200000000 for n in path)
    return within and len(set(path)) == len(path)


def of_one_hash(count):
    """Paths of three ASes with one hash under the start 0."""
    joined = before_mixing(0x123456789ABCDEF)
    paths = []
    for low in range(2**32):
        pair = pair_of_hash((joined >> 32 << 32) | low)
        path = pair and pair + [(low ^ joined) & LOW]
        if path and is_clean(path):
            paths.append(path)
        if len(paths) == count:
            return paths


def of_one_bucket(count):
    """Paths of two ASes whose hashes under the start 0 agree in their last 20 bits."""
    paths = []
    for place in range(2**32):
        pair = pair_of_hash(place << 20 | 0x54321)
        if pair and is_clean(pair):
            paths.append(pair)
        if len(paths) == count:
            return paths


def random_paths(count, length):
    random.seed(count)
    paths = set()
    while len(paths) < count:
        path = tuple(random.randrange(1, 4200000000) for _ in range(length))
        if is_clean(path):
            paths.add(path)
    return list(paths)


def forced_over(fresh, top, rest):
    """Two paths under which the top is over the first of these in every orientation that serves, and so on along them."""
    low, mid, high = (next(fresh) for _ in range(3))
    return [[mid, high, low, top, *rest], [top, low, mid, high]]


def pieces(path):
    """A long path as shorter ones, each of which has its last two ASes in common with the next."""
    return [path[start:start + 60] for start in range(0, max(len(path) - 2, 1), 58)]


def failing_wishes(count):
    """Paths of which as many edges want an end that cannot be. Each such order leads along one chain, at whose end it fails."""
    fresh = iter(range(1000001, 2000000))
    wisher, *climb = (next(fresh) for _ in range(count + 1))
    paths = []
    for low, high in zip(climb, climb[1:]):
        paths += [[wisher, low, high], [wisher, low], [low, wisher]]
    paths += pieces(climb[::-1])
    return paths + forced_over(fresh, next(fresh), climb[:-3:-1])


def turned_chains(count):
    """Paths that ask by turns that a chain go up and that it go down. Each of them could be served by another order of its first edge."""
    chain = list(range(3000001, 3000001 + count))
    paths = pieces(chain)
    for place in range(count):
        paths += [[2000001 + place, chain[-1], chain[-2]], [1000001 + place, *chain[:2]]]
    return paths


def walks_taken_over(count):
    """Paths that are lost by one triple. The first has no shorter walk than along a chain and back, and all others a short one."""
    fresh = iter(range(1000001, 2000000))
    chain, top = [next(fresh) for _ in range(count)], next(fresh)
    first, *others = pieces(chain)
    lost = [top, *chain[:-3:-1]]
    paths = forced_over(fresh, chain[0], first[1:]) + others + forced_over(fresh, top, chain[-1:]) + [lost]
    paths += forced_over(fresh, chain[-3], chain[-2:])
    return paths + [[*lost, next(fresh)] for _ in range(count // 2)]


def fails_before_a_chain(count):
    """By turns paths that force an edge, and one whose first order leads along one chain."""
    fresh = iter(range(2000001, 3000000))
    chain = list(range(1000001, 1000001 + 2 * count))
    paths = pieces(chain)
    for _ in range(count):
        paths += forced_over(fresh, next(fresh), [])
        paths.append([next(fresh), *chain[:2]])
    return paths


def fails_behind_a_hub(count):
    """Paths that force as many edges, each by a short walk that is found behind an AS with as many customers."""
    low, hub, high = 1000001, 1000002, 1000003
    paths = [[low, hub, high], [hub, high, low]] + [[low, hub, leaf] for leaf in range(2000001, 2000001 + count)]
    for edge in range(3000001, 3000001 + count):
        paths += [[edge, low, hub], [high, low, edge]]
    return paths


def long_paths(count):
    """Paths of 500 ASes that have none in common: each can be turned as a whole."""
    return [list(range(start, start + 500)) for start in range(1000001, 1000001 + 500 * count, 500)]


def open_chain(count):
    """One chain of so many edges: whoever knows that one of them goes up knows it of all before it."""
    return pieces(list(range(1000001, 1000002 + count)))


def open_hub(count):
    """So many edges on either side of one AS, each of which has a path over it together with some hundred of the other side."""
    below, above = range(2000001, 2000001 + count), range(3000001, 3000001 + count)
    return [[low, 1000001, above[(place + step) % count]] for place, low in enumerate(below) for step in range(100)]


def dump(paths):
    """A TABLE_DUMP_V2 dump with one route for each path."""
    peers = struct.pack(">IHHB4s4sI", 0, 0, 1, 2, bytes(4), bytes([192, 0, 2, 1]), 10)
    records = [struct.pack(">IHHI", 0, 13, 1, len(peers)) + peers]
    for place, path in enumerate(paths):
        parts = [path[start:start + 255] for start in range(0, len(path), 255)]
        segments = b"".join(struct.pack(f">BB{len(part)}I", 2, len(part), *part) for part in parts)
        attributes = bytes([0x40, 1, 1, 0]) + struct.pack(">BBH", 0x50, 2, len(segments)) + segments
        body = struct.pack(">IB3sHHIH", place, 24, place.to_bytes(3, "big"), 1, 0, 0, len(attributes)) + attributes
        records.append(struct.pack(">IHHI", 0, 13, 2, len(body)) + body)
    return b"".join(records)


def run(command):
    """Processor time in seconds, peak memory in MiB, and what was printed."""
    with tempfile.TemporaryFile() as text:
        child = subprocess.Popen(command, stdout=text, stderr=subprocess.DEVNULL)
        _, _, used = os.wait4(child.pid, 0)
        text.seek(0)
        return used.ru_utime + used.ru_stime, used.ru_maxrss / 1024, text.read()


def measured(command, runs):
    """The least time and the greatest memory of so many runs, and what the last one printed."""
    found = [run(command) for _ in range(runs)]
    return min(seconds for seconds, _, _ in found), max(memory for _, memory, _ in found), found[-1][2]


def made(folder, name, octets_of):
    """A file, made in a process of its own: the memory of this one would count as that of those it starts."""
    file = os.path.join(folder, name)
    maker = os.fork()
    if maker == 0:
        with open(file, "wb") as out:
            out.write(octets_of())
        os._exit(0)
    os.waitpid(maker, 0)
    return file


def checks(folder, torcheck, runs):
    rows = [
        ("20,000 open lines along a chain", lambda: chain(20000)),
        ("80,000 open lines along a chain", lambda: chain(80000)),
        ("10,000 open lines before a chain of 100,000", lambda: before_a_chain(10000, 100000)),
        ("1,000 open lines that rule each other out, before 20,000", lambda: each_for_itself(1000, 20000)),
        ("2,000 open lines that rule each other out, before 40,000", lambda: each_for_itself(2000, 40000)),
        ("2,000 open lines of two kinds by turns, before 20,000 each", lambda: by_turns(2000, 20000)),
        ("8,000 open lines from both ends of a chain of 20,000 by turns", lambda: from_both_ends(8000, 20000)),
        ("lines kept|1|1", lambda: HEAD + "kept|1|1\n" * 5555555 + "end|0|0|0|0|0\n"),
    ]
    for name, text in rows:
        file = made(folder, "result", lambda: text().encode())
        size = os.path.getsize(file)
        seconds, memory, verdict = measured([torcheck, file], runs)
        print(f"{name}, {size / 1e6:.1f} MB: {seconds:.3f} s, {memory:.0f} MiB, {memory * 2**20 / size:.1f} times the file, "
              f"{verdict.decode().strip()}", flush=True)


def lists(folder, tor, runs):
    rows = [
        ("80,000 paths of three ASes and one hash", of_one_hash, 80000, 3),
        ("20,000 paths of two ASes and one bucket", of_one_bucket, 20000, 2),
    ]
    for name, paths_of, count, length in rows:
        chosen = made(folder, "chosen", lambda: dump(paths_of(count)))
        drawn = made(folder, "drawn", lambda: dump(random_paths(count, length)))
        slow, memory, _ = measured([tor, "--list", chosen], runs)
        plain, _, _ = measured([tor, "--list", drawn], runs)
        print(f"{name}: {slow:.3f} s, {memory:.0f} MiB, {slow / max(plain, 0.001):.2f} times as long as as many random paths", flush=True)


def results(folder, tor, runs):
    rows = [
        ("wishes that fail along one chain", failing_wishes, 5000),
        ("chains that are asked to turn", turned_chains, 5000),
        ("walks along a chain that are taken over", walks_taken_over, 5000),
        ("edges that are forced by turns with orders that lead along one chain", fails_before_a_chain, 5000),
        ("edges that are forced after a wide hub", fails_behind_a_hub, 5000),
        ("long paths that have nothing in common", long_paths, 1000),
    ]
    for name, paths_of, count in rows:
        found = []
        for size in (count, 2 * count):
            file = made(folder, "asked", lambda: dump(paths_of(size)))
            found.append(measured([tor, file], runs))
        times = [seconds for seconds, _, _ in found]
        lengths = [len(text) / 1e6 for _, _, text in found]
        opens = [text.count(b"\nopen|") for _, _, text in found]
        print(f"{name}, {count:,} and {2 * count:,}: {times[0]:.3f} s and {times[1]:.3f} s, "
              f"{times[1] / max(times[0], 0.001):.1f} times as long, {found[1][1]:.0f} MiB, "
              f"texts of {lengths[0]:.1f} and {lengths[1]:.1f} MB with {opens[0]:,} and {opens[1]:,} open lines", flush=True)


def asks(folder, tor, runs):
    rows = [
        ("asks of a chain", open_chain, 50000),
        ("asks of edges on both sides of a hub", open_hub, 2000),
    ]
    for name, paths_of, count in rows:
        found, plain = [], []
        for size in (count, 2 * count):
            file = made(folder, "asked", lambda: dump(paths_of(size)))
            found.append(measured([tor, "--ask", file], runs))
            plain.append(measured([tor, file], runs))
        times = [seconds for seconds, _, _ in found]
        lines = [text.count(b"ask|") for _, _, text in found]
        print(f"{name}, {lines[0]:,} and {lines[1]:,} lines: {times[0]:.3f} s and {times[1]:.3f} s, "
              f"{times[1] / max(times[0], 0.001):.1f} times as long, {found[1][1]:.0f} MiB; "
              f"results {plain[0][0]:.3f} s and {plain[1][0]:.3f} s, {plain[1][1]:.0f} MiB", flush=True)


def main():
    tor, torcheck = sys.argv[1:3]
    runs = int(sys.argv[3]) if len(sys.argv) > 3 else 3
    with tempfile.TemporaryDirectory() as folder:
        if torcheck != "-":
            checks(folder, torcheck, runs)
        if tor != "-":
            lists(folder, tor, runs)
            results(folder, tor, runs)
            asks(folder, tor, runs)


if __name__ == "__main__":
    main()
