"""What `torwhy` tells of a result, step by step against its kept paths.

why.py TORWHY RESULT [MOST]

Asks TORWHY for each edge of RESULT, forced ones first, then for each path and each AS, MOST of each kind at most (all, if it isn't given),
and tests what it tells by the lines of RESULT alone, with no word of how a telling was found: each step has to follow from the one before
it, at the named place of a kept path or by the named given, a walk has to begin with an order that is supposed, shown or open, and what is
shown has to be what the label says. Of a path a step prints what it has to, and the neighbours of an AS are those of its edge lines. The
first answer that fails ends it with status 1. Of what doesn't exist, one edge, one path and one AS are asked. RESULT may be any program's.
"""

import subprocess
import sys


class Wrong(Exception):
    pass


def need(fact, why):
    if not fact:
        raise Wrong(why)


def printed(path, place):
    """What a step prints of a path for a place: the whole, or of one of more than 64 ASes from eight before the place to eight behind it."""
    if len(path) <= 64:
        return " ".join(map(str, path))
    first, end = max(place - 9, 0), place + 8
    return ".. " * (first > 0) + " ".join(map(str, path[first:end])) + " .." * (end < len(path))


class Result:
    def __init__(self, name):
        self.lines = open(name).read().split("\n")[:-1]
        rows = [line.split("|") for line in self.lines]
        self.paths = [(row[0], row[1], [int(n) for n in row[2].split()]) for row in rows if row[0] in ("kept", "lost")]
        self.edges = [(int(row[1]), int(row[2]), row[3], row[4], "|".join(row)) for row in rows if row[0] == "edge"]
        self.labels = {edge[:2]: edge[2] for edge in self.edges}
        self.opens = {(int(row[1]), int(row[2])) for row in rows if row[0] == "open"}
        self.givens = [(int(row[1]), int(row[2])) for row in rows if row[0] == "given"]

    def order(self, low, high):
        """Provider and customer by the label of an edge."""
        return (low, high) if self.labels[low, high] == "low" else (high, low)

    def follows(self, before, after, link, shown, named, own=None):
        """By the link, "y over z" follows from "x over y". Earlier steps have named some paths."""
        (x, y), (again, z) = before, after
        need(y == again, "a step that goes on from another AS")
        at, place = link.split(":")
        if at == "g":
            over, under = self.givens[int(place) - 1]
            need(shown == [f"{over} {under}"], "a given that is printed otherwise")
            need((y, z) == (over, under) and x == under, "a given of another order")
            return
        kind, _, path = self.paths[int(at) - 1]
        need(kind == "kept" or int(at) == own, "a path that isn't kept")
        again = len(path) <= 64 and at in named
        need(shown == ([] if again else [printed(path, int(place))]), "a path that is printed otherwise")
        named.add(at)
        need(1 < int(place) < len(path), "a place at an end of the path")
        around = path[int(place) - 2:int(place) + 1]
        need(around in ([x, y, z], [z, y, x]), "a place with other ASes")


def pair(fields):
    return int(fields[0]), int(fields[1])


def walk(result, lines, order, named, own=None):
    """Goes along the `then` lines that come first, and answers all orders on the way, and the lines behind."""
    orders = [order]
    while lines and lines[0][0] == "then":
        result.follows(orders[-1], pair(lines[0][1:3]), lines[0][3], lines[0][4:], named, own)
        orders.append(pair(lines[0][1:3]))
        lines = lines[1:]
    return orders, lines


def judge_forced(result, low, high, lines):
    shown, named = [], set()
    while lines:
        word, order = lines[0][0], pair(lines[0][1:3])
        need(word == ("since" if shown else "if"), f"a walk that begins with {word}")
        need(word == "if" or order in shown, "a walk from an order that isn't shown")
        orders, lines = walk(result, lines[1:], order, named)
        need(word == "since" or orders[-1] == order[::-1], "a walk that doesn't come to the opposite")
        need(lines and lines[0][0] == "so" and pair(lines[0][1:3]) == orders[-1], "no end, or another")
        shown.append(orders[-1])
        lines = lines[1:]
    need(shown and shown[-1] == result.order(low, high), "what is shown isn't what the label says")
    return len(shown)


def judge_open(result, low, high, lines):
    need(lines[0][0] == "open" and pair(lines[0][1:3]) in result.opens, "no open line")
    orders, lines = walk(result, lines[1:], pair(lines[0][1:3]), set())
    need(orders[-1] == result.order(low, high)[::-1], "a walk that doesn't come to the order against the label")
    need(lines == [["free"]], "no `free` at the end")


def judge_edge(result, edge, lines):
    low, high, label, mark, line = edge
    need("|".join(lines[0]) == line, "another line of the edge")
    if mark == "forced":
        return judge_forced(result, low, high, lines[1:])
    if label == "peer":
        need(lines[1:] == [["free"]], "a peering of which more is told")
    else:
        judge_open(result, low, high, lines[1:])
    return 0


def judge_path(result, number, lines):
    kind, times, path = result.paths[number - 1]
    need(lines[0] == [kind, times, " ".join(map(str, path))], "another line of the path")
    if kind == "lost":
        need(lines[1][0] == "if", "a walk that doesn't begin with `if`")
        order = pair(lines[1][1:3])
        orders, lines = walk(result, lines[2:], order, set(), number)
        need(not lines, "lines behind the walk")
        need(order[::-1] in orders[1:-1] and orders[-1] == order, "a walk without its way there or back")
        return
    goings = []
    for x, y in zip(path, path[1:]):
        label = result.labels[min(x, y), max(x, y)]
        up = (label == "low") == (y < x)
        goings.append(["step", str(x), str(y), "flat" if label == "peer" else "up" if up else "down"])
    need(lines[1:] == goings, "other steps")


def judge_neighbours(result, asked, lines):
    kinds = {"provider": [], "peer": [], "customer": []}
    for low, high, label, mark, line in result.edges:
        if asked in (low, high):
            kind = "peer" if label == "peer" else "customer" if result.order(low, high)[0] == asked else "provider"
            kinds[kind].append((-int(line.split("|")[5]), low + high - asked, mark))
    told = [[kind, str(number), mark, str(-less)] for kind, found in kinds.items() for less, number, mark in sorted(found)]
    need(lines == told + [["neighbours"] + [str(len(found)) for found in kinds.values()]], "other neighbours")


def ask(program, result, words):
    run = subprocess.run([program] + words, capture_output=True, text=True)
    return run.returncode, run.stdout, run.stderr


def main():
    program, name = sys.argv[1:3]
    most = int(sys.argv[3]) if len(sys.argv) > 3 else None
    result = Result(name)
    forced = [edge for edge in result.edges if edge[3] == "forced"][:most]
    rest = [edge for edge in result.edges if edge[3] != "forced"][:most]
    longest = 0
    try:
        for turn, edge in enumerate(forced + rest):
            words = [str(edge[turn % 2]), str(edge[1 - turn % 2])]
            status, text, _ = ask(program, result, [name] + words)
            need(status == 0, f"status {status} for {words}")
            longest = max(longest, judge_edge(result, edge, [line.split("|") for line in text.split("\n")[:-1]]))
        for number in range(1, len(result.paths) + 1)[:most]:
            words = ["--path", str(number)]
            status, text, _ = ask(program, result, words + [name])
            need(status == 0, f"status {status} for {words}")
            judge_path(result, number, [line.split("|") for line in text.split("\n")[:-1]])
        ases = list(dict.fromkeys(number for edge in result.edges for number in edge[:2]))[:most]
        for turn, number in enumerate(ases):
            words = ["AS" * (turn % 2) + str(number)]
            status, text, _ = ask(program, result, [name] + words)
            need(status == 0, f"status {status} for {words}")
            judge_neighbours(result, number, [line.split("|") for line in text.split("\n")[:-1]])
        words = ["4294967295"]
        need(ask(program, result, [name] + words) == (1, "", "absent|4294967295\n"), "an AS that isn't there")
        words = ["4294967294", "4294967295"]
        need(ask(program, result, [name] + words) == (1, "", "absent|4294967294|4294967295\n"), "an edge that isn't there")
        number = str(len(result.paths) + 1)
        words = ["--path", number]
        need(ask(program, result, words + [name]) == (1, "", f"absent|{number}\n"), "a path that isn't there")
    except (Wrong, IndexError, ValueError) as why:
        print(f"{name}: {' '.join(words)}: {why}")
        sys.exit(1)
    print(f"{len(forced)} forced edges, by up to {longest} why lines each, {len(rest)} others, {len(result.paths[:most])} paths, {len(ases)} ASes: all told right")


main()
