#!/usr/bin/env python3
"""What is known of networks that buy from nobody, beside all orientations of small random lists of paths.

    python3 bench/top.py SEED COUNT [TOR TORCHECK]

Makes COUNT lists of up to six paths over four to seven ASes, for each a top of up to three ASes, of which some stand on no path, and for
two in three a file of known relationships and peerings. What is known is worked out edge by edge. Going over all orientations it has to be so:
each edge with exactly one end in the top that no line names is forced, with that end as its provider; where no line names such an edge, no
AS of the top has another AS as its provider, and each path with another AS between two of the top is lost. Then the list is cut in two, and
what is known on top of the first part has to keep the fates of its paths, and to come, where no peering of the file is such an edge, to
what is known of all paths at once.

With TOR, `TOR --top` has to write what `TOR --given` writes under the lines that were worked out, alone, with the file, and resumed, and
`TORCHECK` has to say yes. The first difference ends it with status 1.
"""
import os
import random
import subprocess
import sys
import tempfile

from given import dump_of, edge_of, edges_of, random_case, result_of


def has_one(top, edge):
    return (edge[0] in top) != (edge[1] in top)


def top_givens(top, named, paths):
    """The pairs of a provider and its customer, for each edge with exactly one end in the top that is none of the named ones."""
    return [edge if edge[0] in top else edge[::-1] for edge in edges_of(paths) if has_one(top, edge) and edge not in named]


def behind(top, givens, earlier, paths):
    """The same on top of a result with these givens and these first paths."""
    return top_givens(top, {edge_of(*given) for given in givens} | set(edges_of(earlier)), paths)


def has_other_between(top, path):
    places = [place for place, number in enumerate(path) if number in top]
    return any(path[place] not in top for place in range(places[0], places[-1])) if places else False


def fault(top, named, paths, known, ratio):
    """What is wrong of the result under these relationships, or nothing."""
    flags, edges = result_of(paths, known, ratio)
    for edge, provider, is_forced, _ in edges:
        if has_one(top, edge) and edge not in named and (not is_forced or provider not in top):
            return "the edge %d %d" % edge
    if any(has_one(top, edge) and edge in named for edge, _, _, _ in edges):
        return None
    for edge, provider, _, _ in edges:
        if has_one(top, edge) and provider not in top:
            return "the provider of %d %d" % edge
    for path, is_kept in zip(paths, flags):
        if has_other_between(top, path) and is_kept:
            return "the path %s" % path
    return None


def file_case(rng, paths, givens):
    """The lines of a file: givens, and peerings of two other edges at most."""
    lines = [(*given, -1) for given in givens]
    free = [edge for edge in edges_of(paths) if edge not in {edge_of(*given) for given in givens}]
    lines += [(*rng.choice([edge, edge[::-1]]), 0) for edge in rng.sample(free, min(len(free), rng.randint(0, 2)))]
    rng.shuffle(lines)
    return lines


def random_top(rng, paths):
    ases = sorted({number for path in paths for number in path})
    return rng.sample(ases, rng.randint(0, min(3, len(ases)))) + rng.sample([400, 500, 600], rng.randint(0, 1)) or [400]


def written(folder, name, octets):
    path = os.path.join(folder, name)
    with open(path, "wb") as file:
        file.write(octets)
    return path


def output(command):
    ended = subprocess.run(command, stdout=subprocess.PIPE, stderr=subprocess.DEVNULL)
    return ended.stdout if ended.returncode == 0 else None


def serial(lines):
    return "".join("%d|%d|%d\n" % line for line in lines).encode()


def compared(tor, torcheck, folder, rng, top, lines, parts, known, resumed, ratio):
    """What differs between the runs with a top and those under what was worked out, or nothing."""
    names = [str(number) for number in top]
    rng.shuffle(names)
    word, options = ",".join(names + rng.sample(names, rng.randint(0, 1))), ["--ratio", str(ratio)]
    first, second = (written(folder, name, dump_of(part)) for name, part in zip(("first", "second"), parts))
    file = ["--given", written(folder, "file", serial(lines))] if lines is not None else []
    worked = ["--given", written(folder, "worked", serial([(*given, -1) for given in known]))]
    alone = output([tor, "--top", word, *file, *options, first])
    if alone is None or alone != output([tor, *worked, *options, first]):
        return "the run alone"
    result = written(folder, "result", alone)
    if output([torcheck, result, first]) != b"yes\n":
        return "the verdict"
    on_top = output([tor, "--resume", result, "--top", word, *options, second])
    worked = ["--given", written(folder, "worked", serial([(*given, -1) for given in known + resumed]))]
    under = output([tor, *worked, *options, first, second])
    if on_top is None or under is None:
        return "the run on top"
    is_kept = [line for line in on_top.splitlines() if line[:4] not in (b"why|", b"open", b"lost")]
    if is_kept != [line for line in under.splitlines() if line[:4] not in (b"why|", b"open", b"lost")]:
        return "the run on top"
    result = written(folder, "result", on_top)
    if output([torcheck, result, first, second]) != b"yes\n":
        return "the verdict on top"
    return None


def main():
    seed, count, programs = int(sys.argv[1]), int(sys.argv[2]), sys.argv[3:5]
    rng = random.Random(seed)
    seen = dict.fromkeys(["lost between", "bound", "named", "open in the top", "bound on top", "same at once"], 0)
    with tempfile.TemporaryDirectory() as folder:
        for _ in range(count):
            paths, givens, ratio = random_case(rng)
            top = random_top(rng, paths)
            lines = file_case(rng, paths, givens) if rng.random() < 0.67 else None
            transits = [line[:2] for line in lines or [] if line[2]]
            named = {edge_of(*line[:2]) for line in lines or []}
            case = "of the paths %s, the top %s and the lines %s with ratio %d" % (paths, top, lines, ratio)
            known = transits + top_givens(top, named, paths)
            wrong = fault(top, named, paths, known, ratio)
            if wrong:
                sys.exit("%s %s" % (wrong, case))
            cut = rng.randint(0, len(paths))
            before = transits + top_givens(top, named, paths[:cut])
            more = behind(top, before, paths[:cut], paths)
            if result_of(paths[:cut], before, ratio)[0] != result_of(paths, before + more, ratio)[0][:cut]:
                sys.exit("the fates of the first %d %s" % (cut, case))
            if not any(has_one(top, edge_of(*line[:2])) for line in lines or [] if not line[2]):
                if before + more != known:
                    sys.exit("what is known in two runs %s" % case)
                seen["same at once"] += 1
            if programs:
                wrong = compared(*programs, folder, rng, top, lines, (paths[:cut], paths[cut:]), before, more, ratio)
                if wrong:
                    sys.exit("%s %s" % (wrong, case))
            flags = result_of(paths, known, ratio)[0]
            seen["lost between"] += sum(has_other_between(top, path) and not flag for path, flag in zip(paths, flags))
            seen["bound"] += len(known) - len(transits)
            seen["named"] += sum(has_one(top, edge) and edge in named for edge in edges_of(paths))
            seen["open in the top"] += sum(edge[0] in top and edge[1] in top for edge in edges_of(paths))
            seen["bound on top"] += len(more)
    print("%d lists, none different: " % count + ", ".join("%d %s" % (n, what) for what, n in seen.items()))


if __name__ == "__main__":
    main()
