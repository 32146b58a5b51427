#!/usr/bin/env python3
"""Leaks beside all orientations of small random lists of paths.

    python3 bench/hunt.py TOR TORLEAK SEED COUNT

Makes COUNT results of up to six paths over four to seven ASes, with up to five givens of which some name no edge, and for each a dump of up
to eight paths: some of the result's, as they are or the other way round, and others, also with ASes that the result doesn't have. Which of
them are leaks is found by going over all orientations, and their walks are followed link by link. All other lines are worked out from the
edge lines. The first difference ends it with status 1.
"""
import itertools
import os
import random
import subprocess
import sys
import tempfile
from collections import Counter

from given import Text, dump_of, edge_of, edges_of, given_file, is_valley_free, numbers, provider_of, random_case, refutes, steps

KINDS = ["free", "unknown", "valley", "leak"]


def random_dump(rng, paths):
    """Paths of a dump behind a result of these paths, some of them more than once."""
    ases = sorted({a for path in paths for a in path}) + [200, 300]
    found = [rng.choice(paths)[::rng.choice([1, 1, -1])] for _ in range(rng.randint(0, 4))]
    found += [rng.sample(ases, rng.randint(2, min(5, len(ases)))) for _ in range(rng.randint(0, 4))]
    rng.shuffle(found)
    return found


def agreeing(edges, givens, known):
    """All orientations of the edges that agree with the givens, and have the ends that are known."""
    said = {edge_of(*given): given[0] for given in givens}
    ends_of = [[known[edge]] if edge in known else [said[edge]] if edge in said else edge for edge in edges]
    return [dict(zip(edges, ends)) for ends in itertools.product(*ends_of)]


def is_leak(path, givens, serving):
    """Whether no orientation serves this path beside the kept ones; those that serve these are known."""
    mine = edges_of([path])
    return not any(is_valley_free(path, ends) for known in serving for ends in agreeing(mine, givens, known))


def grade(path, labels):
    """The kind of a line, and the first step that isn't known or makes a valley, if there is one."""
    has_turned = False
    for place, (a, b) in enumerate(steps(path), 1):
        if edge_of(a, b) not in labels:
            return ["unknown", str(place)]
        provider = labels[edge_of(a, b)]
        if has_turned and provider != a:
            return ["valley", str(place)]
        has_turned = has_turned or provider != b
    return ["free"]


def links_of(text, own):
    """Pairs of a path and a place: of 0 and the number of a given, or of the number of the path itself."""
    return [tuple(int({"g": "0", "p": own}.get(word, word)) for word in link.split(":")) for link in text.split()]


def fault(lines, result, paths, kept, serving):
    """What is wrong with the lines, or nothing."""
    labels = {edge: provider_of(edge, label) for edge, label, _, _ in result.edges}
    times = Counter(map(tuple, paths))
    strange = [path for path in times if list(path) not in kept.values()]
    if len(lines) != len(strange) + 1:
        return "the number of lines"
    own, counts = len(result.paths) + 1, Counter()
    for path, fields in zip(strange, lines):
        path = list(path)
        counts[fields[0]] += 1
        if fields[1:3] != [str(times[tuple(path)]), " ".join(map(str, path))]:
            return "the path %s" % path
        if is_leak(path, result.givens, serving):
            if fields[0] != "leak" or not refutes(numbers(fields[3]), links_of(fields[4], own), {**kept, own: path}, result.givens):
                return "the leak %s" % path
        elif [fields[0], *fields[3:]] != grade(path, labels):
            return "the grade of %s" % path
    if lines[-1] != ["leaks", str(len(times) - len(strange)), *(str(counts[kind]) for kind in KINDS)]:
        return "the totals"
    return None


def main():
    tor, torleak, seed, count = sys.argv[1], sys.argv[2], int(sys.argv[3]), int(sys.argv[4])
    rng = random.Random(seed)
    seen = Counter()
    with tempfile.TemporaryDirectory() as folder:
        dump, known, result, today = (os.path.join(folder, name) for name in ("dump", "known", "result", "today"))
        for _ in range(count):
            paths, givens, ratio = random_case(rng)
            others = random_dump(rng, paths)
            for name, octets in ((dump, dump_of(paths)), (today, dump_of(others)), (known, given_file(rng, givens, edges_of(paths)).encode())):
                with open(name, "wb") as file:
                    file.write(octets)
            with open(result, "w") as file:
                words = ["--given", known] if givens else []
                subprocess.run([tor, *words, "--ratio", str(ratio), dump], stdout=file, stderr=subprocess.DEVNULL, check=True)
            with open(result) as file:
                text = Text(file.read().splitlines())
            kept = {number: line[1] for number, line in enumerate(text.paths, 1) if line[0]}
            serving = agreeing(edges_of(paths), givens, {})
            serving = [ends for ends in serving if all(is_valley_free(path, ends) for path in kept.values())]
            ran = subprocess.run([torleak, result, today], capture_output=True, text=True)
            lines = [line.split("|") for line in ran.stdout.splitlines()]
            wrong = "status %d" % ran.returncode if ran.returncode or ran.stderr else fault(lines, text, others, kept, serving)
            if wrong:
                sys.exit("%s behind the paths %s under %s with ratio %d, of %s" % (wrong, paths, givens, ratio, others))
            seen.update(fields[0] for fields in lines)
            for fields in lines:
                if fields[0] == "leak":
                    seen.update({"p": "links into the path", "g": "links to givens"}.get(link[0], "links") for link in fields[4].split())
    del seen["leaks"]
    print("%d results, none different: " % count + ", ".join("%d %s" % (n, what) for what, n in sorted(seen.items())))


if __name__ == "__main__":
    main()
