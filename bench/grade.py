"""What grading takes, and whether the cone along a long chain is right.

grade.py TOR TORGRADE DUMP ..

For each dump, the labels of TOR's result are the known relationships: it runs `TOR --list DUMP` and `TORGRADE REL DUMP` in turn, RUNS
times (3 if not set), and prints the least processor time of each, their ratio, the peak memory, and the totals. Then it grades one path
under LINES made-up lines, and along a chain of CHAIN networks, each the provider of the next, asks for the cone of the first, and
compares it. It ends with status 1 where grading took more than RATIO times as long as the list, where the run with LINES lines took more
than BAR seconds, or where the cone is another. RATIO is meant for dumps of 20 vantage points and 200,000 prefixes: the smaller a dump,
the more weighs the reading of REL.
"""

import os
import random
import struct
import subprocess
import sys
import tempfile

RATIO = 1.3
BAR = 0.15
LINES = 500_000
CHAIN = 100_000


def one_route():
    """A TABLE_DUMP of one route, with the AS path 10 20."""
    attributes = struct.pack(">BBBBBHH", 0x40, 2, 6, 2, 2, 10, 20)
    body = struct.pack(">HHIBBIIHH", 0, 0, 0x0A000000, 8, 1, 0, 0xC0000201, 10, len(attributes)) + attributes
    return struct.pack(">IHHI", 0, 12, 1, len(body)) + body


def measured(text, *command):
    """Processor time in seconds and peak memory in MiB, with what is written in the file TEXT."""
    with open(text, "wb") as out:
        child = subprocess.Popen(command, stdout=out)
        _, status, used = os.wait4(child.pid, 0)
    if status:
        sys.exit(f"{' '.join(command)}: status {os.waitstatus_to_exitcode(status)}")
    return used.ru_utime + used.ru_stime, used.ru_maxrss / 1024


def least(runs):
    return min(time for time, _ in runs), max(memory for _, memory in runs)


def write_labels(tor, dump, result, rel):
    """The labels of the result as lines, provider first."""
    with open(result, "wb") as out:
        subprocess.run([tor, dump], stdout=out, stderr=subprocess.DEVNULL, check=True)
    with open(result) as text, open(rel, "w") as lines:
        for line in text:
            word, *fields = line.rstrip().split("|")
            if word == "edge":
                low, high, label = fields[:3]
                lines.write({"low": f"{low}|{high}|-1\n", "high": f"{high}|{low}|-1\n", "peer": f"{low}|{high}|0\n"}[label])


def write_lines(rel):
    """LINES relationships of no two ASes twice: five of each AS to others behind it."""
    draws = random.Random(1)
    with open(rel, "w") as lines:
        for low in range(1, LINES // 5 + 1):
            for step in draws.sample(range(1, 50_000), 5):
                pair = (low, low + step) if draws.random() < 0.5 else (low + step, low)
                lines.write(f"{pair[0]}|{pair[1]}|{draws.choice(('-1', '0'))}\n")


def last_line(text):
    last = ""
    with open(text) as lines:
        for last in lines:
            pass
    return last.rstrip("\n")


def main():
    tor, torgrade, *dumps = sys.argv[1:]
    turns = int(os.environ.get("RUNS", "3"))
    failed = False
    with tempfile.TemporaryDirectory() as work:
        rel, text = os.path.join(work, "rel"), os.path.join(work, "text")
        for dump in dumps:
            write_labels(tor, dump, text, rel)
            lists, grades = [], []
            for _ in range(turns):
                lists.append(measured(text, tor, "--list", dump))
                grades.append(measured(text, torgrade, rel, dump))
            of_list, of_grades = least(lists), least(grades)
            ratio = of_grades[0] / of_list[0]
            print(f"{dump}: grades {of_grades[0]:.3f} s {of_grades[1]:.0f} MiB, list {of_list[0]:.3f} s {of_list[1]:.0f} MiB, "
                  f"ratio {ratio:.2f}, {last_line(text)}")
            failed = failed or ratio > RATIO

        dump = os.path.join(work, "dump")
        with open(dump, "wb") as file:
            file.write(one_route())

        write_lines(rel)
        time, memory = least([measured(text, torgrade, rel, dump) for _ in range(turns)])
        print(f"{LINES:,} lines, one path: {time:.3f} s {memory:.0f} MiB")
        failed = failed or time > BAR

        with open(rel, "w") as lines:
            lines.writelines(f"{n}|{n + 1}|-1\n" for n in range(1, CHAIN))
        time, memory = least([measured(text, torgrade, "--cone", "1", rel, dump) for _ in range(turns)])
        right = last_line(text) == "cone|1|" + " ".join(str(n) for n in range(1, CHAIN + 1))
        print(f"the cone of a chain of {CHAIN:,}: {time:.3f} s {memory:.0f} MiB, {'right' if right else 'WRONG'}")
        failed = failed or not right
    sys.exit(1 if failed else 0)


main()
