"""Whether time and memory grow with the octets that are read and written, on files that are made to be dear.

doublings.py FOLDER [ROW ..]

FOLDER holds `tor`, `torcheck` and `torgrade`. Each row is a kind of file in four sizes, each twice as large as the one before. A line says how
many octets were read and written together, how long it took, the peak memory, and both for an octet; the row ends with how much longer an
octet took in the largest file than in the least that took TENTH of a second or more. With rows named, only these are made. Of less memory
than some 14 MiB, which this script has itself, it can't tell.
"""

import os
import subprocess
import sys
import tempfile

from hostile import HEAD, dump, made, result

TENTH = 0.1
TWO_PATHS = [[30, 40, 20, 10, 50, 60], [10, 20, 30, 40]]


def few_numbers(count):
    """So many pairs of two numbers, the lesser first, all as small as can be."""
    pairs, high = [], 2
    while len(pairs) < count:
        pairs += [(low, high) for low in range(1, high)][:count - len(pairs)]
        high += 1
    return pairs


def serial(pairs):
    return "".join(f"{over}|{under}|-1\n" for over, under in pairs).encode()


def chain(count, start=100001):
    return list(range(start, start + count))


def cut(path, most=250):
    """A path in pieces that have two ASes in common."""
    return [path[place:place + most] for place in range(0, max(len(path) - 2, 1), most - 2)]


def at_most_one(count):
    """Paths under which at most one of so many edges goes up."""
    climb, ends = chain(count), chain(count, 2000001)
    paths = cut(climb)
    for place, end in enumerate(ends):
        paths += [[end, *climb[place:place + 2]]] if place + 1 < count else []
        paths += [[*climb[place - 1:place + 1], end]] if place else []
    return paths


def lost_behind(length, count):
    """As many paths, each of which is lost by a walk of some twice that length."""
    climb, ends, z = chain(length), chain(count, 3000001), 5000000
    paths = [[4000003, 4000004, 4000002, *climb[:200]], [climb[0], 4000002, 4000003, 4000004]] + cut(climb)
    paths += [[4000013, 4000014, 4000012, z, climb[-1]], [z, 4000012, 4000013, 4000014]]
    return paths + [[z, climb[-1], climb[-2], end] for end in ends]


def of_givens(count):
    """Givens by which each of as many paths goes up behind a step down, and these paths."""
    low, middle, high = chain(count), 5000000, chain(count, 3000001)
    givens = [(over, middle) for over in low + high]
    return {"known": serial(givens), "dump": dump([[a, middle, b] for a, b in zip(low, high)])}


def given_chain(count):
    """Givens down a chain, and paths down pieces of it that go up at their ends."""
    down, tops = chain(count), chain(count, 3000001)
    givens = list(zip(down, down[1:]))
    paths = []
    for place in range(0, count - 2, 2):
        givens.append((tops[place], down[place + 2]))
        paths.append(down[place:place + 3] + [tops[place]])
    return {"known": serial(givens), "dump": dump(paths)}


ROWS = {
    "pairs": (50000, lambda n: {"dump": dump([[100000 + 2 * k, 100001 + 2 * k] for k in range(n)])}, "tor dump"),
    "long-paths": (20, lambda n: {"dump": dump([chain(16000, 20000 * (place + 100)) for place in range(n)])}, "tor dump"),
    "lost-far": (250, lambda n: {"dump": dump(lost_behind(1000, n))}, "tor dump"),
    "lost-lines": (400000, lambda n: {"result": (HEAD + "lost|1|||\n" * n).encode()}, "torcheck result"),
    "kept-lines": (400000, lambda n: {"result": (HEAD + "kept|1|1\n" * n).encode()}, "torcheck result"),
    "one-line": (2000000, lambda n: {"result": (HEAD + "kept|1|" + "1 " * n + "1\n").encode()}, "torcheck result"),
    "givens": (131072, lambda n: {"known": serial(few_numbers(n)), "dump": dump(TWO_PATHS)}, "tor --given known dump"),
    "givens-against": (10000, of_givens, "tor --given known dump"),
    "given-chain": (10000, given_chain, "tor --given known dump"),
    "known": (131072, lambda n: {"known": serial(few_numbers(n)), "dump": dump(TWO_PATHS)}, "torgrade known dump"),
    "cone": (131072, lambda n: {"known": serial(zip(chain(n), chain(n)[1:])), "dump": dump(TWO_PATHS)},
             "torgrade --cone 100001 known dump"),
    "ties": (500, lambda n: {"dump": dump(at_most_one(n))}, "tor --ties dump"),
    "marks": (500, lambda n: {"dump": dump(at_most_one(n))}, "tor dump"),
    "taken-up": (131072, lambda n: {"result": result([list(pair) for pair in few_numbers(n)], few_numbers(n)).encode(),
                                    "dump": dump(TWO_PATHS)}, "tor --resume result dump"),
    "zeros": (2**27, bytes, "tor --survey dump"),
}


def measured(programs, folder, files, command):
    program, *words = command.split()
    names = [os.path.join(folder, word) if word in files else word for word in words]
    text = os.path.join(folder, "text")
    with open(text, "wb") as out:
        child = subprocess.Popen([os.path.join(programs, program), *names], stdout=out, stderr=subprocess.DEVNULL)
        _, _, used = os.wait4(child.pid, 0)
    read = sum(os.path.getsize(os.path.join(folder, name)) for name in files)
    return read, os.path.getsize(text), used.ru_utime + used.ru_stime, used.ru_maxrss / 1024


def files_of(maker, size):
    files = maker(size)
    return files if isinstance(files, dict) else {"dump": files}


def row(programs, name):
    least, maker, command = ROWS[name]
    costs = []
    for doubling in range(4):
        with tempfile.TemporaryDirectory() as folder:
            size = least << doubling
            there = [word for word in command.split() if word in ("known", "dump", "result")]
            for file in there:
                made(folder, file, lambda: files_of(maker, size)[file])
            read, written, seconds, memory = measured(programs, folder, there, command)
        octets = read + written
        if seconds >= TENTH:
            costs.append(seconds / octets)
        print(f"{name}, {command}, {size:,}: {read / 1e6:.1f} MB read, {written / 1e6:.1f} written, {seconds:.2f} s, {memory:.0f} MiB, "
              f"{seconds / octets * 1e9:.0f} ns and {memory * 2**20 / octets:.1f} octets an octet", flush=True)
    if costs:
        print(f"    an octet of the largest takes {costs[-1] / costs[0]:.2f} times as long as one of the least", flush=True)


def main():
    programs, *names = sys.argv[1:]
    for name in names or ROWS:
        row(programs, name)


if __name__ == "__main__":
    main()
