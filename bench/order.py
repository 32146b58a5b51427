#!/usr/bin/env python3
"""Results in the order short, beside all orientations of small random lists of paths.

    python3 bench/order.py TOR TORCHECK SEED COUNT

Makes COUNT lists of up to 24 paths over four or five ASes, of which two in five are valley-free under drawn relationships and the others
as they come, so that some are leaked. Some have several routes, and some routes repeat an AS. Here the paths are sorted by length, and
then by their numbers. What is kept of them in that order, which end each edge gets, which are peerings, which are forced and the supports
are found by going over all orientations, and `TOR --order short DUMP` has to write that. It also has to write what `TOR` writes of a dump
whose routes stand in that order, as it is, and with `--list`, `--ties` and `--serial1`. Of the routes in another order, cut into records
and up to three dumps, all lines but the evidence have to be the same. To that text `TORCHECK --any-order` has to say yes, alone and
beside the first dump and these; without the word only if the paths stand in that order. Where a route is taken out or added it has to
name the line. Then the last routes are put to the result of the first ones with `--resume`: that is what `TOR` makes of them in order,
and `TORCHECK --any-order` says yes to it. The first difference ends it with status 1.
"""
import os
import random
import struct
import subprocess
import sys
import tempfile
from collections import Counter

sys.dont_write_bytecode = True
from given import Text, provider_of, record, result_of  # noqa: E402
from resume import without_evidence, written  # noqa: E402

HEAD = 10  # lines of a result before its paths
MODES = [[], ["--list"], ["--ties"], ["--serial1"]]


def route(path):
    segment = struct.pack(">BB", 2, len(path)) + b"".join(struct.pack(">I", number) for number in path)
    attributes = struct.pack(">BBB", 0x40, 2, len(segment)) + segment
    return struct.pack(">HIH", 0, 0, len(attributes)) + attributes


def dump_of(records):
    """A peer table, and a prefix for each list of paths, with a route for each of them."""
    octets = record(13, 1, struct.pack(">IHH", 0, 0, 1) + struct.pack(">BIII", 2, 0, 0, 1))
    for place, paths in enumerate(records):
        octets += record(13, 2, struct.pack(">IBH", place, 0, len(paths)) + b"".join(map(route, paths)))
    return octets


def cut(rng, routes, most):
    """Lists of up to so many routes each, one after the other."""
    pieces, at = [], 0
    while at < len(routes):
        more = rng.randint(1, most)
        pieces.append(routes[at:at + more])
        at += more
    return pieces


def short(paths):
    return sorted(paths, key=lambda path: (len(path), path))


def walked(rng, ases):
    """A path that is valley-free where the ASes that come first are the providers, or any path: then it may be a leak."""
    path = rng.sample(ases, rng.randint(2, min(5, len(ases))))
    if rng.random() < 0.6:
        return path
    ups = rng.randint(0, len(path))
    rank = ases.index
    return sorted(path[:ups], key=rank, reverse=True) + sorted(path[ups:], key=rank)


def random_paths(rng):
    """Distinct paths in whatever order, each with its times."""
    ases = rng.sample([3, 9, 10, 11, 99, 100, 101, 3356, 131072, 4199999999], rng.randint(4, 5))
    paths = []
    for _ in range(rng.randint(1, 24)):
        path = walked(rng, ases)
        if path not in paths:
            paths.append(path)
    return [(path, rng.choice([1, 1, 2, 3])) for path in paths]


def stretched(rng, path):
    """The path as a route has it: now and then an AS stands there twice."""
    return [number for number in path for _ in range(2 if rng.random() < 0.1 else 1)]


def routes_of(rng, rows):
    return [stretched(rng, path) for path, times in rows for _ in range(times)]


def clean(path):
    return [number for at, number in enumerate(path) if at == 0 or path[at - 1] != number]


def counted(routes):
    """How often each path comes, in order of first appearance."""
    return Counter(tuple(clean(path)) for path in routes)


def verdict_any(rows, routes):
    """What rule 11 says of these path lines beside dumps of these routes, whatever their order."""
    times = counted(routes)
    for number, (path, its_times) in enumerate(rows, HEAD + 1):
        if times[tuple(path)] != its_times:
            return "no|%d|11\n" % number
    return "yes\n" if len(+times) == len(rows) else "no|%d|11\n" % (HEAD + 1 + len(rows))


def ran(*command):
    done = subprocess.run(command, stdout=subprocess.PIPE, stderr=subprocess.PIPE, universal_newlines=True)
    if done.returncode not in (0, 1):
        sys.exit("status %d of %s: %s" % (done.returncode, " ".join(command), done.stderr))
    return done.stdout


def path_rows(lines):
    """The path lines of a result as (path, times)."""
    fields = [line.split("|") for line in lines if line.startswith(("kept|", "lost|"))]
    return [([int(word) for word in field[2].split()], int(field[1])) for field in fields]


class Case:
    """One list of paths, its dumps in a folder, and the programs."""

    def __init__(self, rng, folder, tor, torcheck):
        self.rng, self.folder, self.tor, self.torcheck = rng, folder, tor, torcheck
        self.rows = random_paths(rng)
        self.routes = routes_of(rng, self.rows)
        times = {tuple(path): its_times for path, its_times in self.rows}
        self.ordered = [(path, times[tuple(path)]) for path in short(path for path, _ in self.rows)]
        self.seen = Counter()

    def dump(self, name, routes):
        return written(os.path.join(self.folder, name), dump_of(cut(self.rng, routes, 3)))

    def dumps(self, name, pieces):
        return [self.dump("%s%d" % (name, number), piece) for number, piece in enumerate(pieces or [[]])]

    def fault(self):
        """What differs, or nothing."""
        first = self.dump("first", self.routes)
        in_order = self.dump("ordered", routes_of(self.rng, self.ordered))
        for mode in MODES:
            if ran(self.tor, "--order", "short", *mode, first) != ran(self.tor, *mode, in_order):
                return "the text of %s" % " ".join(mode)
        text = ran(self.tor, "--order", "short", first)
        return self.fault_of_text(text) or self.fault_of_others(text, first) or self.fault_of_resumed()

    def fault_of_text(self, text):
        lines = text.splitlines()
        if path_rows(lines) != self.ordered:
            return "the order"
        said = Text(lines)
        flags, edges = result_of([path for path, _ in self.ordered], [], 60)
        if [line[0] for line in said.paths] != flags:
            return "what is kept"
        if [(edge, provider_of(edge, label), mark, support) for edge, label, mark, support in said.edges] != edges:
            return "the edges"
        self.seen["paths"] += len(self.rows)
        self.seen["lost"] += flags.count(False)
        self.seen["lost as seen"] += result_of([path for path, _ in self.rows], [], 60)[0].count(False)
        self.seen["of a length that stands twice"] += len(self.rows) - len({len(path) for path, _ in self.rows})
        return None

    def fault_of_others(self, text, first):
        """Beside the routes in another order, in other records and dumps."""
        moved = self.rng.sample(self.routes, len(self.routes))
        others = self.dumps("other", cut(self.rng, moved, max(1, (len(moved) + 2) // 3)))
        other = ran(self.tor, "--order", "short", *others)
        if without_evidence(other) != without_evidence(text):
            return "the text of other dumps"
        self.seen["with other evidence"] += other != text
        self.seen["with another text as seen"] += without_evidence(ran(self.tor, *others)) != without_evidence(ran(self.tor, first))
        result = written(os.path.join(self.folder, "result"), text.encode())
        for dumps in ([], [first], others):
            if ran(self.torcheck, "--any-order", result, *dumps) != "yes\n":
                return "a verdict that isn't yes, of %d dumps" % len(dumps)
        stands = [tuple(path) for path, _ in self.ordered] == list(counted(moved))
        if (ran(self.torcheck, result, *others) == "yes\n") != stands:
            return "the verdict in order"
        self.seen["refused without the word"] += not stands
        return self.fault_of_changed(result, moved)

    def fault_of_changed(self, result, routes):
        """Where the dumps have a route less, or more."""
        less = routes[1:]
        again = routes + [self.rng.choice(routes)]
        extra = routes + [[7, self.rng.choice(routes)[0]]]
        for changed in (less, again, extra):
            verdict = ran(self.torcheck, "--any-order", result, *self.dumps("changed", cut(self.rng, changed, 4)))
            if verdict != verdict_any(self.ordered, changed):
                return "the verdict %s of other routes" % verdict.strip()
            self.seen["refused beside other routes"] += verdict != "yes\n"
        return None

    def fault_of_resumed(self):
        """The first routes in whatever order, and the others put to their result."""
        at = self.rng.randint(0, len(self.routes))
        monday, tuesday = self.routes[:at], self.routes[at:]
        earlier = counted(monday)
        new = short([list(path) for path in counted(tuesday) if path not in earlier])
        behind = [path for path in tuesday if tuple(clean(path)) in earlier]
        times = counted(tuesday)
        behind += [path for path in new for _ in range(times[tuple(path)])]
        dumps = [self.dump("monday", monday), self.dump("tuesday", tuesday), self.dump("behind", behind)]
        result = written(os.path.join(self.folder, "earlier"), ran(self.tor, dumps[0]).encode())
        text = ran(self.tor, "--order", "short", "--resume", result, dumps[1])
        if text != ran(self.tor, "--resume", result, dumps[2]):
            return "the text resumed"
        if [tuple(path) for path, _ in path_rows(text.splitlines())] != list(earlier) + [tuple(path) for path in new]:
            return "the order resumed"
        resumed = written(os.path.join(self.folder, "resumed"), text.encode())
        if ran(self.torcheck, "--any-order", resumed, dumps[1], dumps[0]) != "yes\n":
            return "a verdict that isn't yes, resumed"
        self.seen["resumed with new paths"] += bool(earlier and new)
        return None


def main():
    tor, torcheck, seed, count = sys.argv[1], sys.argv[2], int(sys.argv[3]), int(sys.argv[4])
    rng, seen = random.Random(seed), Counter()
    with tempfile.TemporaryDirectory() as folder:
        for number in range(1, count + 1):
            case = Case(rng, folder, tor, torcheck)
            wrong = case.fault()
            if wrong:
                sys.exit("list %d: %s, of the paths %s" % (number, wrong, case.rows))
            seen.update(case.seen)
    print("%d lists, none different: " % count + ", ".join("%d %s" % (n, what) for what, n in seen.items()))


if __name__ == "__main__":
    main()
