"""How many labels are right, where the relationships are known.

truth.py FOLDER ..

Each FOLDER is named by the number of vantage points and the seed, as in 20-1, and holds what truth.sh makes: `truth`, the relationships as
lines `provider|customer|-1` and `peer|peer|0`; the distinct `paths`; the edge lines, and the lost paths, of the results of WAYS and of
`ratio10` and `ratio5`; and the lines `tier1` and `contracts`. These tables are printed:

1. of how many edges the label is the true one, beside the rule "the end of the greater degree is the provider", at equal degrees the lower
   number;
2. what is wrong with the others: reversed, where provider and customer have changed places, or of another kind, where the two are peers in
   truth, or where they are labelled peer and one sells to the other;
3. the same over all seeds, from the least share to the greatest;
4. the edges labelled peer at three ratios;
5. the forced edges as they are, and with the contracts of the Tier 1 given;
6. the ways of WAYS beside each other: the forced labels that are right, of how many edges; the peerings, which are the labels peer, and
   all labels; the lost paths that are innocent; the leaked paths that are lost, and those that are kept; and the ASes in cycles;
7. the same over all seeds, from the least to the greatest;
8. the same of all tables together.

1 to 4 are as seen. `Open` are the open edges labelled low or high. An edge labelled peer is always open, and counts by itself. A path is
innocent if it is valley-free under the true relationships, and otherwise leaked; each distinct path counts once. An AS is in a cycle if
another is its provider and its customer, direct or indirect, by the labels.
"""
import os
import sys
from collections import Counter, defaultdict

KINDS = {"forced": "forced", "open": "open, labelled low or high", "peer": "labelled peer"}
OUTCOMES = ("right", "reversed", "other kind")

# The results that are compared, and what they are called: in both orders, without what is known and with it.
WAYS = {"seen": "As seen", "short": "Short", "known-seen": "Known, as seen", "known-short": "Known, short"}

# Of which edges it is told how many are right.
SHARES = {"Forced, right": "forced", "Peerings, right": "peer", "All, right": None}

# A step of a path, from the first AS on.
UP, FLAT, DOWN = range(3)


def relationships(name):
    """For each pair of neighbours, the lower number first: low or high for the provider, or peer."""
    found = {}
    with open(name) as lines:
        for line in lines:
            a, b, kind = (int(field) for field in line.split("|"))
            found[min(a, b), max(a, b)] = "peer" if kind == 0 else "low" if a < b else "high"
    return found


def rows_of(name, first):
    """The lines of a file that begin with this field, each as its other fields."""
    with open(name) as lines:
        rows = [line.rstrip("\n").split("|") for line in lines]
    return [row[1:] for row in rows if row[0] == first]


def edges_of(name):
    """The edges of a result as (pair, label, mark)."""
    return [((int(low), int(high)), label, mark) for low, high, label, mark, _ in rows_of(name, "edge")]


def steps_of(truth):
    """What a step is, for each pair of neighbours in this order."""
    steps = {}
    for (low, high), label in truth.items():
        steps[low, high] = {"low": DOWN, "peer": FLAT, "high": UP}[label]
        steps[high, low] = 2 - steps[low, high]
    return steps


def is_leaked(path, steps):
    """Whether it isn't ups, at most one flat step, downs."""
    ases = [int(word) for word in path.split()]
    before = UP
    for pair in zip(ases, ases[1:]):
        step = steps[pair]
        if step < before or step == before == FLAT:
            return True
        before = step
    return False


def reached(start, nexts, within):
    """The ASes of a set to which steps within it lead."""
    found, todo = {start}, [start]
    while todo:
        more = (nexts[todo.pop()] & within) - found
        found |= more
        todo.extend(more)
    return found


def in_cycles(edges):
    """How many ASes are their own indirect providers by the labels."""
    providers, customers = defaultdict(set), defaultdict(set)
    for pair, label, _ in edges:
        if label != "peer":
            over, under = pair if label == "low" else pair[::-1]
            providers[under].add(over)
            customers[over].add(under)
    left, before = set(providers), None
    while left != before:
        before, left = left, {each for each in left if providers[each] & left and customers[each] & left}
    count = 0
    while left:
        start = next(iter(left))
        cycle = reached(start, providers, left) & reached(start, customers, left)
        count += len(cycle) if len(cycle) > 1 else 0
        left -= cycle
    return count


def outcome(label, true):
    """What a label is beside the truth."""
    return "right" if label == true else "other kind" if "peer" in (label, true) else "reversed"


class Count:
    """How often each outcome comes among the edges of each kind."""

    def __init__(self, edges, truth):
        self.times = Counter((label if label == "peer" else mark, outcome(label, truth[pair])) for pair, label, mark in edges)

    def number(self, kind=None, what=None):
        return sum(times for (its, came), times in self.times.items() if kind in (its, None) and what in (came, None))

    def share(self, kind=None, what="right"):
        return self.number(kind, what) / max(self.number(kind), 1)

    def wrong(self, kind):
        return f"{self.number(kind) - self.number(kind, 'right'):,}, {100 - 100 * self.share(kind):.2f} %"


class Table:
    """What is known of one table."""

    def __init__(self, folder):
        self.vantages, self.seed = os.path.basename(os.path.normpath(folder)).split("-")
        self.truth = relationships(f"{folder}/truth")
        self.edges = {name: edges_of(f"{folder}/{name}") for name in (*WAYS, "ratio10", "ratio5")}
        self.count = {name: Count(edges, self.truth) for name, edges in self.edges.items()}
        self.contracts = relationships(f"{folder}/contracts")
        with open(f"{folder}/tier1") as lines:
            self.tier1 = len(lines.readlines())
        steps = steps_of(self.truth)
        with open(f"{folder}/paths") as paths:
            self.leaks = sum(is_leaked(path, steps) for path in paths)
        self.figures = {way: self.figures_of(way, [is_leaked(path, steps) for path, in rows_of(f"{folder}/{way}", "lost")]) for way in WAYS}

    def figures_of(self, way, lost):
        """What is compared of a result, shares as parts of one. `lost` says of each lost path whether it is leaked."""
        count = self.count[way]
        return {
            "Forced edges": count.number("forced"),
            **{what: count.share(kind) for what, kind in SHARES.items()},
            "Innocent paths lost": len(lost) - sum(lost),
            "Leaked paths lost": sum(lost),
            "Leaked paths kept": self.leaks - sum(lost),
            "ASes in cycles of providers": in_cycles(self.edges[way]),
        }

    def by_degree(self):
        degree = Counter(end for pair, _, _ in self.edges["seen"] for end in pair)
        guessed = [(pair, "low" if degree[pair[0]] >= degree[pair[1]] else "high", mark) for pair, _, mark in self.edges["seen"]]
        return Count(guessed, self.truth).share()

    def peerings(self):
        """How many edges are peerings in truth."""
        return sum(self.truth[pair] == "peer" for pair, _, _ in self.edges["seen"])


def percent(share):
    return f"{100 * share:.1f} %"


def span(shares):
    low, high = f"{100 * min(shares):.1f}", f"{100 * max(shares):.1f}"
    return f"{low} to {high} %" if low != high else f"{low} %"


def row(*cells):
    print("|", " | ".join(str(cell) for cell in cells), "|")


def head(*cells):
    print()
    row(*cells)
    print("|" + "---|" * len(cells))


def right_labels(tables):
    head("Vantage points", "Seed", "Edges", "Forced", "Right", "Open", "Right", "Peer", "Right", "All, right", "By degree, right")
    for table in tables:
        count = table.count["seen"]
        cells = [cell for kind in KINDS for cell in (f"{count.number(kind):,}", percent(count.share(kind)))]
        row(table.vantages, table.seed, f"{count.number():,}", *cells, percent(count.share()), percent(table.by_degree()))


def outcomes(tables):
    head("Vantage points", "Seed", "Edges", "Number", "Right", "Reversed", "Other kind", "Reversed of contracts in truth")
    for table in tables:
        count = table.count["seen"]
        for kind, words in KINDS.items():
            cells = [f"{count.number(kind, what):,}, {percent(count.share(kind, what))}" for what in OUTCOMES]
            contracts = count.number(kind, "right") + count.number(kind, "reversed")
            of_contracts = "" if kind == "peer" else f"{count.number(kind, 'reversed'):,} of {contracts:,}"
            row(table.vantages, table.seed, words, f"{count.number(kind):,}", *cells, of_contracts)


def spans(tables):
    head("Vantage points", "Edges", "Number", "Right", "Reversed", "Other kind")
    for vantages in sorted({table.vantages for table in tables}):
        counts = [table.count["seen"] for table in tables if table.vantages == vantages]
        for kind, words in KINDS.items():
            numbers = sorted(count.number(kind) for count in counts)
            shares = [span([count.share(kind, what) for count in counts]) for what in OUTCOMES]
            row(vantages, words, f"{numbers[0]:,} to {numbers[-1]:,}", *shares)


def ratios(tables):
    head("Vantage points", "Seed", "Ratio", "Peer", "Right", "Of the peerings among the edges", "All, right")
    for table in tables:
        for ratio, name in ((60, "seen"), (10, "ratio10"), (5, "ratio5")):
            count = table.count[name]
            found = count.number("peer", "right") / max(table.peerings(), 1)
            row(table.vantages, table.seed, ratio, f"{count.number('peer'):,}", percent(count.share("peer")), percent(found),
                percent(count.share()))


def given(tables):
    head("Vantage points", "Seed", "Tier 1", "Forced", "Wrong", "Contracts given", "Forced", "Wrong", "Forced, not given", "Wrong",
         "All, right", "All, right, given")
    for table in tables:
        before, after = table.count["seen"], table.count["known-seen"]
        others = Count([edge for edge in table.edges["known-seen"] if edge[0] not in table.contracts], table.truth)
        row(table.vantages, table.seed, table.tier1, f"{before.number('forced'):,}", before.wrong("forced"), f"{len(table.contracts):,}",
            f"{after.number('forced'):,}", after.wrong("forced"), f"{others.number('forced'):,}", others.wrong("forced"),
            percent(before.share()), percent(after.share()))


def figure(value):
    return f"{100 * value:.2f} %" if isinstance(value, float) else f"{value:,}"


def ways(tables):
    head("Vantage points", "Seed", "What", *WAYS.values())
    for table in tables:
        for what in table.figures["seen"]:
            row(table.vantages, table.seed, what, *(figure(table.figures[way][what]) for way in WAYS))


def spans_of_ways(tables):
    head("Vantage points", "What", *WAYS.values())
    for vantages in sorted({table.vantages for table in tables}):
        those = [table.figures for table in tables if table.vantages == vantages]
        for what in those[0]["seen"]:
            row(vantages, what, *(from_to([figures[way][what] for figures in those]) for way in WAYS))


def from_to(values):
    return " to ".join(dict.fromkeys((figure(min(values)), figure(max(values)))))


def total(tables, way, what):
    counts = [table.count[way] for table in tables]
    if what in SHARES:
        return sum(count.number(SHARES[what], "right") for count in counts) / sum(count.number(SHARES[what]) for count in counts)
    return sum(table.figures[way][what] for table in tables)


def totals(tables):
    head("All tables", *WAYS.values())
    for what in tables[0].figures["seen"]:
        row(what, *(figure(total(tables, way, what)) for way in WAYS))


def main():
    tables = [Table(folder) for folder in sys.argv[1:]]
    for print_table in (right_labels, outcomes, spans, ratios, given, ways, spans_of_ways, totals):
        print_table(tables)


if __name__ == "__main__":
    main()
