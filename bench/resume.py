#!/usr/bin/env python3
"""Chains of resumed results, beside one run over all dumps.

    python3 bench/resume.py TOR TORCHECK SEED COUNT [TABLE ..]

Makes COUNT lists of up to twelve paths over four to eight ASes, some of them more than once and some that give no path, half of them with
givens, and cuts each into up to four dumps, some of them empty. The result of the first dump is resumed with the second, that with the third, and so
on. All lines of the last result but the evidence have to be those of `TOR` over all dumps, the first path lines of each result those of the
one before it but for their times, and `TORCHECK` has to say yes to each, alone and with all its dumps. Then a line of a result on the way is
changed at random: where `TORCHECK` names a line and a rule, `TOR --resume` has to name them too, with status 1 and nothing written. Each TABLE
is cut into four by its records, and put together in the same way. The first difference ends it with status 1.
"""
import os
import random
import struct
import subprocess
import sys
import tempfile


def record(kind, subtype, body):
    return struct.pack(">IHHI", 0, kind, subtype, len(body)) + body


def records_of(octets):
    """The records of a dump, with their headers."""
    found, at = [], 0
    while at < len(octets):
        length = 12 + struct.unpack(">I", octets[at + 8:at + 12])[0]
        found.append(octets[at:at + length])
        at += length
    return found


def peer_table():
    return record(13, 1, struct.pack(">IHH", 0, 0, 1) + struct.pack(">BIII", 2, 0, 0, 1))


def route(place, path):
    segment = struct.pack(">BB", 2, len(path)) + b"".join(struct.pack(">I", number) for number in path)
    attributes = struct.pack(">BBB", 0x40, 2, len(segment)) + segment
    return record(13, 2, struct.pack(">IBH", place, 0, 1) + struct.pack(">HIH", 0, 0, len(attributes)) + attributes)


def is_peer_table(octets):
    return struct.unpack(">HH", octets[4:8]) == (13, 1)


def cut(octets, places):
    """Dumps of the records up to each of these places; each begins with the peer table before it."""
    pieces, table, piece = [], b"", b""
    for place, one in enumerate(records_of(octets)):
        if place in places:
            pieces.append(piece)
            piece = table
        if is_peer_table(one):
            table = one
        piece += one
    return pieces + [piece]


def run(*command):
    done = subprocess.run(command, stdout=subprocess.PIPE, stderr=subprocess.PIPE)
    return done.returncode, done.stdout.decode(), done.stderr.decode()


def written(name, octets):
    with open(name, "wb") as file:
        file.write(octets)
    return name


def without_evidence(text):
    """All lines but why and open lines, with no walk behind a lost path."""
    lines = [line for line in text.splitlines() if not line.startswith(("why|", "open|"))]
    return ["|".join(line.split("|")[:3]) if line.startswith("lost|") else line for line in lines]


def decided(text):
    """What became of each path, with its walk, and without its times."""
    fields = [line.split("|") for line in text.splitlines() if line.startswith(("kept|", "lost|"))]
    return [field[:1] + field[2:] for field in fields]


def accepts(torcheck, text, dumps):
    for words in ([], dumps):
        answer = run(torcheck, text, *words)
        if answer != (0, "yes\n", ""):
            return "torcheck with %d dumps: %s" % (len(words), answer)
    return None


def chain(tor, torcheck, dumps, options, folder):
    """The texts of the results on the way, or what differs."""
    texts = []
    for number, dump in enumerate(dumps):
        if number == 0:
            status, text, note = run(tor, *options, dump)
        else:
            status, text, note = run(tor, "--resume", name, dump)
        if status != 0:
            return None, "status %d: %s" % (status, note)
        if texts and decided(text)[:len(decided(texts[-1]))] != decided(texts[-1]):
            return None, "the first lines of result %d" % number
        texts.append(text)
        name = written(os.path.join(folder, "result%d" % number), text.encode())
        wrong = accepts(torcheck, name, dumps[:number + 1])
        if wrong:
            return None, wrong
    status, text, note_of_all = run(tor, *options, *dumps)
    if (status, note_of_all) != (0, note):
        return None, "the summary, or status %d: %s" % (status, note_of_all)
    if without_evidence(text) != without_evidence(texts[-1]):
        return None, "the last result"
    return texts, None


def refused(tor, torcheck, rng, text, dump, folder):
    """The rule that a text with a random fault breaks, and what differs."""
    lines = text.splitlines(True)
    at = rng.randrange(len(lines))
    line = lines[at]
    way = rng.random()
    if way < 0.2:
        del lines[at]
    elif way < 0.3:
        lines.insert(at, line)
    elif way < 0.6:
        old, new = rng.choice([("kept", "lost"), ("forced", "open"), ("open", "forced"), ("low", "high"), ("peer", "low"), ("|1", "|2"), ("1", "2")])
        lines[at] = line.replace(old, new, 1)
    else:
        place = rng.randrange(len(line))
        lines[at] = line[:place] + rng.choice("0123456789| :\n") + line[place + 1:]
    name = written(os.path.join(folder, "changed"), "".join(lines).encode())
    status, verdict, _ = run(torcheck, name)
    answer = run(tor, "--resume", name, dump)
    if status == 1:
        return verdict.split("|")[2].strip(), None if answer == (1, "", verdict) else "%s in place of %s" % (answer, verdict)
    return "none", None if answer[0] == 0 else "%s where torcheck says %s" % (answer, verdict)


def random_case(rng):
    """The records of a dump behind its peer table, where it is cut, and givens."""
    ases = rng.sample(range(1, 100), rng.randint(4, 8))
    paths = [rng.sample(ases, rng.randint(1, min(5, len(ases)))) for _ in range(rng.randint(0, 12))]
    paths += [rng.choice(paths) for _ in range(rng.randint(0, 3)) if paths]
    rng.shuffle(paths)
    octets = peer_table() + b"".join(route(place, path) for place, path in enumerate(paths))
    places = sorted(rng.randint(1, len(paths) + 1) for _ in range(rng.randint(1, 3)))
    pieces = cut(octets, set(places)) + [b""] * rng.randint(0, 1)
    givens, named = [], set()
    for _ in range(rng.choice([0, 0, 1, 3])):
        pair = rng.sample(ases, 2)
        if frozenset(pair) not in named:
            named.add(frozenset(pair))
            givens.append("%d|%d|-1\n" % tuple(pair))
    return pieces, "".join(givens) if givens or rng.random() < 0.2 else None


def main():
    tor, torcheck, seed, count = sys.argv[1], sys.argv[2], int(sys.argv[3]), int(sys.argv[4])
    rng = random.Random(seed)
    rules = {}
    with tempfile.TemporaryDirectory() as folder:
        for case in range(count):
            pieces, givens = random_case(rng)
            dumps = [written(os.path.join(folder, "dump%d" % number), piece) for number, piece in enumerate(pieces)]
            options = []
            if givens is not None:
                options = ["--given", written(os.path.join(folder, "givens"), givens.encode())]
            texts, wrong = chain(tor, torcheck, dumps, options, folder)
            if wrong is None:
                rule, wrong = refused(tor, torcheck, rng, rng.choice(texts), dumps[-1], folder)
                rules[rule] = rules.get(rule, 0) + 1
            if wrong:
                sys.exit("case %d of seed %d: %s" % (case, seed, wrong))
        for table in sys.argv[5:]:
            with open(table, "rb") as file:
                octets = file.read()
            many = len(records_of(octets))
            pieces = cut(octets, {many // 4, many // 2, many - many // 4})
            dumps = [written(os.path.join(folder, "piece%d" % number), piece) for number, piece in enumerate(pieces)]
            texts, wrong = chain(tor, torcheck, dumps, [], folder)
            if wrong:
                sys.exit("%s: %s" % (table, wrong))
            print("%s: four pieces, %s" % (os.path.basename(table), texts[-1].splitlines()[-1]))
    named = ", ".join("%s: %d" % (rule, rules[rule]) for rule in sorted(rules, key=lambda rule: (len(rule), rule)))
    print("%d lists, none different; rules that changed results break: %s" % (count, named))


if __name__ == "__main__":
    main()
