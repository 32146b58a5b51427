#!/usr/bin/env python3
"""Results under givens, beside all orientations of small random lists of paths.

    python3 bench/given.py TOR TORCHECK SEED COUNT

Makes COUNT dumps with up to six paths over four to seven ASes, and for each a file of up to five givens, of which some name no edge, with
comments and peerings between them. What is kept in the result of `TOR --given FILE DUMP`, which end each edge gets, which edges become
peerings, which are forced and the supports are found by going over all orientations; the walks, the why lines and the open lines are
followed link by link. `TORCHECK` has to say yes to it, alone and with the dump; and of a copy in which one given line is turned round it
has to say what following the rules says. The first difference ends it with status 1.
"""
import itertools
import os
import random
import struct
import subprocess
import sys
import tempfile


def record(kind, subtype, body):
    return struct.pack(">IHHI", 0, kind, subtype, len(body)) + body


def dump_of(paths):
    """A peer table, and a prefix with one route for each path."""
    octets = record(13, 1, struct.pack(">IHH", 0, 0, 1) + struct.pack(">BIII", 2, 0, 0, 1))
    for place, path in enumerate(paths):
        segment = struct.pack(">BB", 2, len(path)) + b"".join(struct.pack(">I", number) for number in path)
        attributes = struct.pack(">BBB", 0x40, 2, len(segment)) + segment
        entry = struct.pack(">HIH", 0, 0, len(attributes)) + attributes
        octets += record(13, 2, struct.pack(">IBH", place, 0, 1) + entry)
    return octets


def given_file(rng, givens, edges):
    """The lines of the givens, in order, with comments and with peerings of other ASes between them."""
    said = {edge_of(*given) for given in givens}
    lines = []
    for over, under in givens:
        if rng.random() < 0.2:
            lines.append("# %d|%d|-1" % (under, over))
        if rng.random() < 0.2:
            a, b = rng.choice(edges)
            if (a, b) not in said:
                lines.append("%d|%d|0" % rng.choice([(a, b), (b, a)]))
        lines.append("%d|%d|-1" % (over, under))
    return "".join(line + "\n" for line in lines)


def edge_of(a, b):
    return min(a, b), max(a, b)


def steps(path):
    return list(zip(path, path[1:]))


def edges_of(paths):
    found = []
    for path in paths:
        for a, b in steps(path):
            if edge_of(a, b) not in found:
                found.append(edge_of(a, b))
    return found


def is_valley_free(path, labels):
    """Ups, at most one flat step, downs. A label is the provider of the edge, or None."""
    has_turned = False
    for a, b in steps(path):
        provider = labels[edge_of(a, b)]
        if provider == b and has_turned:
            return False
        if provider is None and has_turned:
            return False
        has_turned = has_turned or provider != b
    return True


def votes(path, degree):
    """The pairs of a voted provider and its neighbour."""
    top = max(range(len(path)), key=lambda i: (degree[path[i]], -i))
    return [(b, a) if i < top else (a, b) for i, (a, b) in enumerate(steps(path))]


def result_of(paths, givens, ratio):
    """The flags of the paths, and for each edge its label, whether it is forced, and its support."""
    edges = edges_of(paths)
    degree = {a: sum(a in edge for edge in edges) for path in paths for a in path}
    said = {edge_of(*given): given[0] for given in givens}
    serving = [dict(zip(edges, ends)) for ends in itertools.product(*edges)]
    serving = [ends for ends in serving if all(ends[edge] == over for edge, over in said.items() if edge in ends)]
    flags, kept = [], []
    for path in paths:
        more = [ends for ends in serving if is_valley_free(path, ends)]
        flags.append(bool(more))
        if more:
            serving = more
            kept.append(path)
    forced = {edge for edge in edges if len({ends[edge] for ends in serving}) == 1}
    counts = {}
    for path in kept:
        for vote in votes(path, degree):
            counts[vote] = counts.get(vote, 0) + 1
    leans = {(low, high): counts.get((low, high), 0) - counts.get((high, low), 0) for low, high in edges}
    for edge in sorted(edges, key=lambda edge: -abs(leans[edge])):
        low, high = edge
        lean = leans[edge] or degree[low] - degree[high]
        wanted = low if lean >= 0 else high
        serving = [ends for ends in serving if ends[edge] == wanted] or serving
    labels = dict(serving[0])
    supports = {edge: sum(edge in map(lambda step: edge_of(*step), steps(path)) for path in kept) for edge in edges}
    for edge in edges:
        degrees = sorted(degree[a] for a in edge)
        if edge not in said and supports[edge] and degrees[1] <= ratio * degrees[0]:
            tried = {**labels, edge: None}
            if all(is_valley_free(path, tried) for path in kept):
                labels = tried
    return flags, [(edge, labels[edge], edge in forced, supports[edge]) for edge in edges]


def is_walk(ases, links, paths, givens):
    """Whether each link fits its three ASes: `paths` are the numbered paths that it may name."""
    if len(ases) < 2 or len(links) != len(ases) - 2:
        return False
    for (number, at), three in zip(links, zip(ases, ases[1:], ases[2:])):
        if number == 0:
            if not 1 <= at <= len(givens) or three != (givens[at - 1][1], givens[at - 1][0], givens[at - 1][1]):
                return False
        elif number not in paths or not 2 <= at < len(paths[number]):
            return False
        elif tuple(paths[number][at - 2:at + 1]) not in (three, three[::-1]):
            return False
    return True


def refutes(ases, links, paths, givens):
    pair = ases[:2]
    return is_walk(ases, links, paths, givens) and pair[0] != pair[1] and ases[-2:] == pair and pair[::-1] in map(list, steps(ases))


def closure(order, paths, givens):
    """All orders that follow from one by the paths and by all givens."""
    arcs = {(under, over): [(over, under)] for over, under in givens}
    for path in paths:
        for way in (path, path[::-1]):
            for x, y, z in zip(way, way[1:], way[2:]):
                arcs.setdefault((x, y), []).append((y, z))
    reached, left = {order}, [order]
    while left:
        for after in arcs.get(left.pop(), []):
            if after not in reached:
                reached.add(after)
                left.append(after)
    return reached


class Text:
    """The lines of a result."""

    def __init__(self, lines):
        fields = [line.split("|") for line in lines]
        self.head = lines[:10]
        self.givens = [(int(f[1]), int(f[2])) for f in fields if f[0] == "given"]
        self.paths = [(f[0] == "kept", *map(numbers, f[2:4])) for f in fields if f[0] in ("kept", "lost")]
        self.links = [links(f[4]) if f[0] == "lost" else None for f in fields if f[0] in ("kept", "lost")]
        self.edges = [((int(f[1]), int(f[2])), f[3], f[4] == "forced", int(f[5])) for f in fields if f[0] == "edge"]
        self.whys = [(numbers(f[1]), links(f[2])) for f in fields if f[0] == "why"]
        self.opens = [(int(f[1]), int(f[2])) for f in fields if f[0] == "open"]
        self.end = fields[-1][1:]


def numbers(text):
    return [int(word) for word in text.split()]


def links(text):
    """Pairs of a path and a place, or of 0 and the number of a given."""
    return [tuple(map(int, ("0" + word[1:] if word[0] == "g" else word).split(":"))) for word in text.split()]


def provider_of(edge, label):
    return {"low": edge[0], "high": edge[1], "peer": None}[label]


def fault(text, paths, givens, ratio):
    """What is wrong with a result, or nothing."""
    if text.head[:3] != ["tor|2", "sets|cut", "ratio|%d" % ratio] or text.givens != givens:
        return "head"
    flags, edges = result_of(paths, givens, ratio)
    if [line[0] for line in text.paths] != flags or [line[1] for line in text.paths] != paths:
        return "kept"
    if [(edge, provider_of(edge, label), mark, support) for edge, label, mark, support in text.edges] != edges:
        return "edges"
    counts = [sum(flags), len(flags) - sum(flags), len(edges), sum(e[2] for e in edges), sum(e[1] is None for e in edges)]
    if text.end != [str(count) for count in counts]:
        return "totals"
    kept = {}
    for number, (line, its_links) in enumerate(zip(text.paths, text.links), 1):
        if line[0]:
            kept[number] = line[1]
        elif not refutes(line[2], its_links, {**kept, number: line[1]}, givens):
            return "walk of path %d" % number
    shown = set()
    for ases, its_links in text.whys:
        begins, order = tuple(ases[:2]), tuple(ases[-2:])
        if not is_walk(ases, its_links, kept, givens) or (begins != order[::-1] and begins not in shown) or order in shown:
            return "why"
        shown.add(order)
    closures = [closure(order, kept.values(), givens) for order in text.opens]
    if any((b, a) in orders for orders in closures for a, b in orders):
        return "open line"
    for edge, provider, is_forced, _ in edges:
        if is_forced and edge not in shown and edge[::-1] not in shown:
            return "mark of a forced edge"
        other = edge[::-1] if provider == edge[0] else edge
        if not is_forced and provider is not None and not any(other in orders for orders in closures):
            return "mark of an open edge"
    return None


def random_case(rng):
    ases = rng.sample(range(1, 100), rng.randint(4, 7))
    paths = []
    for _ in range(rng.randint(1, 6)):
        path = rng.sample(ases, rng.randint(2, min(5, len(ases))))
        if path not in paths and len(edges_of(paths + [path])) <= 12:
            paths.append(path)
    edges = edges_of(paths)
    pairs = rng.sample(edges, min(rng.randint(0, 3), len(edges)))
    for pair in itertools.combinations(sorted(ases + [200, 300]), 2):
        if pair not in edges and rng.random() < 0.1 and len(pairs) < 5:
            pairs.append(pair)
    rng.shuffle(pairs)
    givens = [tuple(rng.sample(pair, 2)) for pair in pairs]
    return paths, givens, rng.choice([0, 1, 2, 60])


def first_breach(text, givens, paths, ratio):
    """The line and the rule of a result of these givens, which differ from those that it was made of in that one is turned round: the
    first lost path whose walk goes along it; else the edge whose label it is against; else the first why line that goes along it."""
    kept, behind = {}, 11 + len(givens)
    for number, (line, its_links) in enumerate(zip(text.paths, text.links), 1):
        if line[0]:
            kept[number] = line[1]
        elif not refutes(line[2], its_links, {**kept, number: line[1]}, givens):
            return behind + number - 1, 4
    behind += len(text.paths)
    said = {edge_of(*given): given[0] for given in givens}
    for number, (edge, label, _, _) in enumerate(text.edges):
        if edge in said and provider_of(edge, label) != said[edge]:
            return behind + number, 6
    behind += len(text.edges)
    for number, (ases, its_links) in enumerate(text.whys):
        if not is_walk(ases, its_links, kept, givens):
            return behind + number, 8
    return None


def answer(command):
    return subprocess.run(command, stdout=subprocess.PIPE, universal_newlines=True).stdout


def main():
    tor, torcheck, seed, count = sys.argv[1], sys.argv[2], int(sys.argv[3]), int(sys.argv[4])
    rng = random.Random(seed)
    kinds = ["lost", "forced without a kept path", "peers", "givens", "givens of no edge", "links to givens", "turned round"]
    seen = dict.fromkeys(kinds, 0)
    with tempfile.TemporaryDirectory() as folder:
        dump, known, result, changed = (os.path.join(folder, name) for name in ("dump", "known", "result", "changed"))
        for _ in range(count):
            paths, givens, ratio = random_case(rng)
            with open(dump, "wb") as file:
                file.write(dump_of(paths))
            with open(known, "w") as file:
                file.write(given_file(rng, givens, edges_of(paths)))
            with open(result, "w") as file:
                subprocess.run([tor, "--given", known, "--ratio", str(ratio), dump], stdout=file, stderr=subprocess.DEVNULL, check=True)
            with open(result) as file:
                lines = file.read().splitlines()
            text = Text(lines)
            case = "of the paths %s under %s with ratio %d" % (paths, givens, ratio)
            wrong = fault(text, paths, givens, ratio)
            if wrong:
                sys.exit("%s %s" % (wrong, case))
            if answer([torcheck, result]) != "yes\n" or answer([torcheck, result, dump]) != "yes\n":
                sys.exit("a verdict that isn't yes %s" % case)
            edges = [edge for edge, _, _, _ in text.edges]
            all_links = [its for its in text.links if its] + [its for _, its in text.whys]
            if givens:
                turned = rng.randrange(len(givens))
                others = [given[::-1] if number == turned else given for number, given in enumerate(givens)]
                lines[10 + turned] = "given|%d|%d" % others[turned]
                with open(changed, "w") as file:
                    file.writelines(line + "\n" for line in lines)
                breach, verdict = first_breach(text, others, paths, ratio), answer([torcheck, changed])
                if breach and verdict != "no|%d|%d\n" % breach or not breach and verdict not in ("yes\n",) and "|9\n" not in verdict:
                    sys.exit("the verdict %s for %s with given %d turned round, %s" % (verdict.strip(), breach, turned + 1, case))
                seen["turned round"] += bool(breach)
            seen["lost"] += sum(not line[0] for line in text.paths)
            seen["forced without a kept path"] += sum(mark and not support for _, _, mark, support in text.edges)
            seen["peers"] += sum(label == "peer" for _, label, _, _ in text.edges)
            seen["givens"] += len(givens)
            seen["givens of no edge"] += sum(edge_of(*given) not in edges for given in givens)
            seen["links to givens"] += sum(number == 0 for its in all_links for number, _ in its)
    print("%d dumps, none different: " % count + ", ".join("%d %s" % (n, what) for what, n in seen.items()))


if __name__ == "__main__":
    main()
