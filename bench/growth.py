"""Whether tables double as they grow: time on a dump whose paths have very many distinct triples.

growth.py TOR [TRIPLES]

Makes two dumps of routes of three ASes through one AS in the middle, no two with the same triple, one with TRIPLES of them (a million)
and one with half as many, and runs TOR on both, three times in turn. It prints the least processor time and the greatest peak memory of
each, and ends with status 1 where the larger dump took more than BAR seconds, or more than RATIO times as long as the smaller. A table
that takes room for a fixed number of entries at a time, or is made anew at each entry, is far beyond both.
"""

import os
import struct
import subprocess
import sys
import tempfile

BAR = 3.0
RATIO = 2.8
MIDDLE = 1_000_000


def record(kind, subtype, body):
    return struct.pack(">IHHI", 0, kind, subtype, len(body)) + body


def peer_table():
    return record(13, 1, struct.pack(">IHH", 0, 0, 1) + struct.pack(">BIII", 2, 0, 0, 1))


def entry(path):
    segment = struct.pack(">BB", 2, len(path)) + b"".join(struct.pack(">I", number) for number in path)
    attributes = struct.pack(">BBB", 0x40, 2, len(segment)) + segment
    return struct.pack(">HIH", 0, 0, len(attributes)) + attributes


def write_dump(file, triples):
    """Routes `x MIDDLE z`, the x below and the z above the middle, so many that each x stands beside each z once."""
    side = 1
    while side * side < triples:
        side += 1
    file.write(peer_table())
    left = triples
    for x in range(1, side + 1):
        entries = [entry((x, MIDDLE, MIDDLE + z)) for z in range(1, min(side, left) + 1)]
        left -= len(entries)
        if entries:
            file.write(record(13, 2, struct.pack(">IBH", x, 0, len(entries)) + b"".join(entries)))


def measured(program, dump):
    """Processor time in seconds and peak memory in MiB."""
    child = subprocess.Popen([program, dump], stdout=subprocess.DEVNULL, stderr=subprocess.DEVNULL)
    _, status, used = os.wait4(child.pid, 0)
    if status:
        sys.exit(f"{program} {dump}: status {os.waitstatus_to_exitcode(status)}")
    return used.ru_utime + used.ru_stime, used.ru_maxrss / 1024


def main():
    program = sys.argv[1]
    triples = int(sys.argv[2]) if len(sys.argv) > 2 else 1_000_000
    with tempfile.TemporaryDirectory() as room:
        dumps = []
        for count in (triples // 2, triples):
            dumps.append((count, f"{room}/{count}.mrt"))
            with open(dumps[-1][1], "wb") as file:
                write_dump(file, count)
        least, most = [float("inf")] * 2, [0.0] * 2
        for _ in range(3):
            for place, (_, dump) in enumerate(dumps):
                seconds, memory = measured(program, dump)
                least[place], most[place] = min(least[place], seconds), max(most[place], memory)
    for (count, _), seconds, memory in zip(dumps, least, most):
        print(f"{count} triples: {seconds:.2f} s, {memory:.0f} MiB")
    sys.exit(1 if least[1] > BAR or least[1] > RATIO * least[0] else 0)


main()
