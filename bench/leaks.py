#!/usr/bin/env python3
"""Leaked routes found from one day to the next: by `torleak`, by `tor --resume`, and by `torgrade`.

    python3 bench/leaks.py TOR TORGRADE TORLEAK

Pairs of tables, Monday's and Tuesday's, are made by internet.sh, which needs cc, with `--day 1` and `--day 2`: 15,000 networks, 40,000
peerings, 20,000 prefixes, 40 vantage points, and the seeds 1, 2 and 3. Nothing differs from Monday to Tuesday but what is leaked, each day
other 4 of 100 prefixes, and how some are announced: a tenth of the prefixes, and then all, are announced anew on each day. Ways to an alarm
are compared, each for paths of Tuesday's table that Monday's doesn't have:

- leak, valley, either: the lines of TORLEAK behind Monday's result;
- resumed: the new `lost` lines of `TOR --resume` over Monday's result;
- graded: the `valley` lines of TORGRADE under Monday's labels;
- each with Monday's result as it comes, with `--top` and the networks that buy from nobody, and with `--order short` besides.

An alarm is true if its path isn't valley-free under the true relationships. For each pair and way a line of a table in Markdown says how
many paths of Tuesday's are new, how many of these aren't valley-free, how many alarms there were, and how many of them were true. A second
table has the sums. It takes four minutes, and 200 MB in TMPDIR.
"""
import os
import subprocess
import sys
import tempfile
from collections import Counter

from truth import head, percent, relationships, row

HERE = os.path.dirname(os.path.abspath(__file__))
SIZES = "--ases 15000 --peerings 40000 --prefixes 20000 --vantages 40".split()
COLUMNS = ("new", "leaked", "alarms", "true")
WAYS = {
    "leak": ("leaks.txt", "leak"),
    "valley": ("leaks.txt", "valley"),
    "either": ("leaks.txt", "leak", "valley"),
    "resumed": ("tuesday.txt", "lost"),
    "graded": ("grades.txt", "valley"),
}
TITLES = ("Announced anew", "Seed", "Way", "New paths", "Leaked", "Alarms", "True", "Of the alarms", "Of the leaked")


def run(out, *command):
    with open(out, "w") as text:
        subprocess.run(command, stdout=text, stderr=subprocess.DEVNULL, check=True)


def fields_of(name, *kinds):
    """The fields of the lines of these kinds."""
    with open(name) as lines:
        rows = (line.rstrip("\n").split("|") for line in lines)
        return [fields for fields in rows if fields[0] in kinds]


def paths_of(name, *kinds):
    return [fields[2] for fields in fields_of(name, *kinds)]


def is_valley_free(path, truth):
    """Up, at most one step between peers, and down (Gao 2001)."""
    may_climb = True
    for a, b in zip(path, path[1:]):
        label = truth[min(a, b), max(a, b)]
        climbs = label != "peer" and (label == "low") == (b < a)
        if not may_climb and (climbs or label == "peer"):
            return False
        may_climb = climbs
    return True


def tier1(truth):
    """The networks that buy from nobody."""
    buyers = {high if label == "low" else low for (low, high), label in truth.items() if label != "peer"}
    return sorted({number for edge in truth for number in edge} - buyers)


def made(seed, changed):
    """The two days, and the true relationships."""
    for day, table in (("1", "monday"), ("2", "tuesday")):
        options = [*SIZES, "--seed", str(seed), "--day", day, "--changed", str(changed), "--truth", "truth"]
        if subprocess.run([f"{HERE}/internet.sh", *options, table], stdout=subprocess.DEVNULL, check=False).returncode:
            sys.exit(1)
    return relationships("truth")


def alarms(programs, truth, options):
    """For each way, what is counted: the new paths, the leaked ones among them, the alarms, and the true ones among these."""
    tor, torgrade, torleak = programs
    run("monday.txt", tor, *options, "monday")
    run("tuesday.txt", tor, "--resume", "monday.txt", "tuesday")
    run("rel.txt", tor, *options, "--serial1", "monday")
    run("grades.txt", torgrade, "rel.txt", "tuesday")
    run("leaks.txt", torleak, "monday.txt", "tuesday")
    known = set(paths_of("monday.txt", "kept", "lost"))
    new = [path for path in paths_of("tuesday.txt", "kept", "lost") if path not in known]
    leaked = {path for path in new if not is_valley_free([int(number) for number in path.split()], truth)}
    found = {}
    for way, (name, *kinds) in WAYS.items():
        raised = [path for path in paths_of(name, *kinds) if path not in known]
        found[way] = Counter(new=len(new), leaked=len(leaked), alarms=len(raised), true=len(leaked.intersection(raised)))
    return found


def line(changed, seed, way, count):
    cells = [f"{count[column]:,}" for column in COLUMNS]
    row(f"{changed // 10000} %", seed, way, *cells, percent(count["true"] / max(count["alarms"], 1)),
        percent(count["true"] / max(count["leaked"], 1)))


def main():
    programs = [os.path.abspath(program) for program in sys.argv[1:4]]
    sums = {}
    head(*TITLES)
    with tempfile.TemporaryDirectory() as folder:
        os.chdir(folder)
        for changed in (100000, 1000000):
            for seed in (1, 2, 3):
                truth = made(seed, changed)
                top = ["--top", ",".join(map(str, tier1(truth)))]
                for behind, options in (("", []), (", top", top), (", top and short", [*top, "--order", "short"])):
                    for way, count in alarms(programs, truth, options).items():
                        line(changed, seed, way + behind, count)
                        sums.setdefault((changed, way + behind), Counter()).update(count)
        os.chdir("/")
    head(*TITLES)
    for (changed, way), count in sums.items():
        line(changed, "all", way, count)


if __name__ == "__main__":
    main()
