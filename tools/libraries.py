#!/usr/bin/env python3
"""Proves the libraries of a checkout, and the programs that are named, side by side, and says how far it is.

  tools/libraries.py [CHECKOUT [LANES [CRATE ..]]]

Each crate is proved as soon as those below it are, first those with the longest chain of others above them, in at most LANES processes (as
many as there are processors, where that is 0 or not said) and some 12 GB of memory. Where fewer crates than LANES can be proved, each gets
several processes. With names only these crates and what is below them are proved; a program is proved, and built, only where it is named.

A library is there with its stamp, so that `rt check` and `rt plant` work over it at once, and a program as out/NAME with the stamp that `rt
run` reads. What has its stamp is taken as it is, and so are libraries that some kits keep of what their gate has proved. So it can be
stopped at any time, by Ctrl-C or in any other way, and started again: it loses only what the crates in work have not kept in
out/incremental. What a check says goes into the crate's out/proof.log. There is no quick pass over all sources, with which `rt all check`
begins.

The gate trusts none of it, since it sets out/ aside. Any other rt that works in these crates waits meanwhile. This calls what `rt` itself
is made of, so another kit may need another script.
"""
import copy
import importlib.machinery
import importlib.util
import os
import shutil
import signal
import sys
import threading
import time
from concurrent.futures import FIRST_COMPLETED, ThreadPoolExecutor, wait

if not shutil.which('rt'):
    sys.exit('a Rattle kit is needed on the PATH, and there is no rt on it')
KIT = os.path.dirname(os.path.dirname(os.path.realpath(shutil.which('rt'))))

# How much memory all proofs together take at most, in bytes, and how much of it a second process in the same crate takes beside the first.
MEMORY = 12e9
SECOND = 0.6

# The most processes that gain in one crate: four cost a third more processor time than one.
MOST = 4

# After how many seconds it says how far it is.
EVERY = 30


def rt_of(kit):
    """The program `rt` as a module."""
    sys.dont_write_bytecode = True
    sys.path.insert(0, f'{kit}/bin')
    loader = importlib.machinery.SourceFileLoader('rt', f'{kit}/bin/rt')
    module = importlib.util.module_from_spec(importlib.util.spec_from_loader('rt', loader))
    sys.modules['rt'] = module
    loader.exec_module(module)
    return module


def crates_of(rt, root, names):
    """The crates of these names and the libraries below them, or all libraries, lower ones first."""
    crates = sorted(rt.rtlib.crates_below(root), key=lambda crate: len(crate.below()))
    known = {crate.name for crate in crates}
    for name in names:
        if name not in known:
            sys.exit(f'{name} is no crate of {root}')
    wanted = {name for crate in crates if crate.name in names for name in (crate.name, *(it.name for it in crate.below()))}
    return [crate for crate in crates if (crate.name in wanted if names else not crate.is_program)]


class Work:
    """What has to be known of a crate before its proof: the names of those below it, about how many seconds it takes on one processor, and
    how much memory."""

    def __init__(self, rt, crate, lines):
        self.below = {it.name for it in crate.below()}
        antt = sum(rt.rtlib.text_of(file).count('\n') for file in rt.rtlib.files_of(crate.folder) if file.endswith('.antt'))
        self.seconds = 15 + 0.05 * lines[crate.name] + 0.01 * antt + 0.001 * sum(lines[name] for name in self.below)
        # of what the gate plans on, most crates were seen to take a third, and `tor_output` and the programs two thirds to three quarters
        self.memory = 0.75 * rt.need(crate)


def works_of(rt, crates):
    """For each name its work."""
    lines = {crate.name: crate.count(rb'\n') for crate in crates}
    return {crate.name: Work(rt, crate, lines) for crate in crates}


def chains_of(works):
    """For each name the seconds of the longest chain that begins with this crate and goes up. The lower ones are given first."""
    chains = {}
    for name in reversed(works):
        above = [chains[other] for other in chains if name in works[other].below]
        chains[name] = works[name].seconds + max(above, default=0)
    return chains


def once_each(stamp):
    """The method that stamps a crate, which then reads each crate below once, and not once for each way that leads there."""
    known = threading.local()

    def stamp_once(crate):
        if hasattr(known, 'stamps'):
            if crate.folder not in known.stamps:
                known.stamps[crate.folder] = stamp(crate)
            return known.stamps[crate.folder]
        known.stamps = {}
        try:
            return stamp(crate)
        finally:
            del known.stamps

    return stamp_once


def take_kept(kept, crate):
    """Puts a library that was kept into its crate's out/, and answers whether there was one."""
    stamp, place = crate.stamp(), f'{crate.folder}/out/rlib'
    if not os.path.isdir(kept.place(crate, False, kept.key(crate))):
        return False
    shutil.rmtree(place, ignore_errors=True)
    os.makedirs(f'{crate.folder}/out', exist_ok=True)
    if not kept.give(crate, False, kept.key(crate)):
        return False
    with open(f'{place}/stamp', 'w', encoding='utf-8') as file:
        file.write(stamp)
    return True


def is_program_built(rt, crate):
    """Whether a program was built of just these sources, by its stamp."""
    program = f'{crate.folder}/out/{crate.name}'
    return rt.rtlib.text_of(f'{program}.stamp') == crate.stamp() + rt.rtlib.sum_of(program)


def is_there(rt, kept, crate, has_all_below):
    """Whether a crate is there as it is now, proved before this run. What a kit kept is taken only over what is there below."""
    if crate.is_program:
        return is_program_built(rt, crate)
    kept = kept if has_all_below else None
    if not (crate.is_built() or kept and take_kept(kept, crate)):
        return False
    if kept:
        # what was kept of the crates above goes by the sum of this library
        kept.is_built(crate)
    return True


def build_program(rt, crate, jobs):
    """Proves and builds a program, and answers the status."""
    program = f'out/{crate.name}'
    stamp, kept = crate.stamp(), f'{crate.folder}/{program}.stamp'
    if os.path.exists(kept):
        os.remove(kept)
    status = crate.compile(['--jobs', str(jobs)], f'{program}.o') or crate.link(f'{program}.o', program)
    if status == 0 and stamp == crate.stamp():
        with open(kept, 'w', encoding='utf-8') as file:
            file.write(stamp + rt.rtlib.sum_of(f'{crate.folder}/{program}'))
    return status


def prove(rt, crate, jobs):
    """Proves a crate, and answers whether it is proved."""
    crate, begun = copy.copy(crate), time.time()
    os.makedirs(f'{crate.folder}/out', exist_ok=True)
    log = f'{crate.folder}/out/proof.log'
    with open(log, 'w', encoding='utf-8') as crate.out:
        status = -signal.SIGKILL
        for count in (jobs, 1):
            # killed most likely for memory: once more
            if status == -signal.SIGKILL:
                status = build_program(rt, crate, count) if crate.is_program else crate.build_rlib(['--jobs', str(count)], anew=False)
    if status:
        print(f'{crate.name} IS NOT PROVED: {os.path.relpath(log)} says why', flush=True)
    else:
        by = f' by {jobs} processes' if jobs > 1 else ''
        print(f'{crate.name}: proved in {time.time() - begun:.0f} s{by}', flush=True)
    return status == 0


class Lanes:
    """Which crates are proved, which are in work, and which are left. Crates are given lower ones first."""

    def __init__(self, rt, kept, crates, lanes):
        self.rt, self.lanes = rt, lanes
        self.memory = min(MEMORY, 0.85 * rt.free())
        self.proved, self.failed, self.running = set(), [], {}
        self.works = works_of(rt, crates)
        chains = chains_of(self.works)
        for crate in crates:
            if is_there(rt, kept, crate, all(name in self.proved for name in self.works[crate.name].below)):
                self.proved.add(crate.name)
        self.count, self.taken = len(crates), len(self.proved)
        self.left = sorted((crate for crate in crates if crate.name not in self.proved), key=lambda crate: -chains[crate.name])

    def ready(self):
        """The crates that are left of which all below are proved. Those that stand on one that isn't proved go out."""
        self.left = [crate for crate in self.left if not any(name in self.failed for name in self.works[crate.name].below)]
        return [crate for crate in self.left if all(name in self.proved for name in self.works[crate.name].below)]

    def start(self, pool):
        """Begins the proofs for which there are processors and memory."""
        ready = self.ready()
        for at, crate in enumerate(ready):
            idle = self.lanes - sum(jobs for _, jobs, _, _ in self.running.values())
            room = self.memory - sum(memory for _, _, memory, _ in self.running.values())
            need = self.works[crate.name].memory
            if idle <= 0 or self.running and need > room:
                continue
            jobs = max(1, min(MOST, idle // (len(ready) - at), 1 + int((room / need - 1) / SECOND)))
            self.left.remove(crate)
            memory = need * (1 + SECOND * (jobs - 1))
            self.running[pool.submit(prove, self.rt, crate, jobs)] = crate.name, jobs, memory, time.time()

    def take(self, done):
        """Takes note of a proof that has ended."""
        name = self.running.pop(done)[0]
        if done.result():
            self.proved.add(name)
        else:
            self.failed.append(name)

    def tell(self):
        """Says how far it is."""
        now = ', '.join(f'{name} ({time.time() - begun:.0f} s)' for name, _, _, begun in self.running.values())
        print(f'{len(self.proved)} of {self.count} crates are proved; in work: {now}', flush=True)

    def run(self):
        """Proves all that is left."""
        told = time.time()
        with ThreadPoolExecutor(self.lanes) as pool:
            while True:
                self.start(pool)
                if not self.running:
                    break
                for done in wait(self.running, timeout=max(0, told + EVERY - time.time()), return_when=FIRST_COMPLETED).done:
                    self.take(done)
                if self.running and time.time() >= told + EVERY:
                    told = time.time()
                    self.tell()


def stop(number, _):
    """Ends at once. The proofs in work end with it, since `guarded` of rt sees to that."""
    print('\nstopped: what is proved stays, and the next run goes on from there', flush=True)
    os._exit(128 + number)


def main():
    rt = rt_of(KIT)
    root = os.path.abspath(sys.argv[1] if len(sys.argv) > 1 else '.')
    lanes = int(sys.argv[2]) if len(sys.argv) > 2 else 0
    lanes = lanes or rt.processors()
    os.chdir(root)
    rt.Crate.allowed = rt.handles_of(root)
    rt.rtlib.Crate = rt.Crate
    rt.Crate.stamp = once_each(rt.Crate.stamp)
    crates = crates_of(rt, root, sys.argv[3:])
    signal.signal(signal.SIGINT, stop)
    signal.signal(signal.SIGTERM, stop)
    held = rt.rtlib.lock(crates)
    rt.rtlib.guarded()
    work = Lanes(rt, rt.Kept(crates) if hasattr(rt, 'Kept') else None, crates, lanes)
    if work.left:
        print(f'{work.taken} of {work.count} crates are proved, and {len(work.left)} are left for {lanes} processors', flush=True)
    work.run()
    for folder in held:
        os.close(folder)
    lacking = [crate.name for crate in crates if crate.name not in work.proved]
    if not lacking:
        print(f'all {work.count} crates are proved')
        return 0
    above = [name for name in lacking if name not in work.failed]
    print(f'{len(work.proved)} of {work.count} crates are proved. Not proved:', *work.failed)
    if above:
        print('not tried, since they stand on these:', *above)
    return 1


if __name__ == '__main__':
    sys.exit(main())
