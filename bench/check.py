"""Changes lines of a result at random, and compares what two builds of `torcheck` print and how they end.

check.py SECONDS SEED TORCHECK OTHER RESULT

OTHER is another build, such as that of an earlier commit; any program will do that takes RESULT and says what the rules of docs/FORMATS.md
say.
"""

import os
import random
import subprocess
import sys
import tempfile
import time

WORDS = [b"low", b"high", b"peer", b"open", b"forced", b"0", b"1", b"4294967295", b""]
OCTETS = b"0123456789|: keptlosdgwhyfrc"


def changed(lines):
    lines = list(lines)
    at = random.randrange(len(lines) - 1)
    way = random.random()
    if way < 0.5:
        line = bytearray(lines[at])
        if line:
            line[random.randrange(len(line))] = random.choice(OCTETS)
        lines[at] = bytes(line)
    elif way < 0.65:
        other = random.randrange(len(lines) - 1)
        lines[at], lines[other] = lines[other], lines[at]
    elif way < 0.75:
        del lines[at]
    elif way < 0.85:
        lines.insert(at, lines[random.randrange(len(lines) - 1)])
    else:
        fields = lines[at].split(b"|")
        fields[random.randrange(len(fields))] = random.choice(WORDS)
        lines[at] = b"|".join(fields)
    return b"\n".join(lines)


def main():
    seconds, seed, torcheck, other, result = sys.argv[1:6]
    random.seed(int(seed))
    with open(result, "rb") as file:
        lines = file.read().split(b"\n")
    runs, different = 0, 0
    end = time.time() + float(seconds)
    with tempfile.TemporaryDirectory() as folder:
        name = os.path.join(folder, "changed.txt")
        while time.time() < end:
            with open(name, "wb") as file:
                file.write(changed(lines))
            ours = subprocess.run([torcheck, name], capture_output=True)
            theirs = subprocess.run([other, name], capture_output=True)
            runs += 1
            if (ours.stdout, ours.returncode) != (theirs.stdout, theirs.returncode):
                different += 1
                print("different:", ours.stdout, ours.returncode, theirs.stdout, theirs.returncode)
    print(runs, "runs,", different, "different")


main()
