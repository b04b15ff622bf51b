#!/usr/bin/env python3
"""The gate crate by crate, for an `rt` that keeps nothing between two runs of `rt ci`.

    gate.py [--lanes N] [--only CRATE,..] [--first CRATE,..] [--parts proof,tests,edits] [--run] [--store] [--dry]

Each crate is proved as `rt ci` proves it, by the functions of `rt` itself: from nothing, over libraries that were proved so. So are the tests and the must-fail
edits. What passed is kept in .git/gate as long as neither the crate nor one below it changes, and libraries stay in crates/*/out: so a crate that
changed is proved again with those above it, and no others. A part that is not done begins with the longest chain of others behind it.
A stop by Ctrl-C, or a change of a crate that waits, loses nothing but what is under way.

--run runs all programs and tests that are built, as the gate does at its end, --store writes the measured seconds to docs/costs.tsv,
--dry says what is to be done. The last line is `N passed, M failed`. Only `rt ci` is the verdict: it also looks at the texts of all crates first.
"""
import argparse
import glob
import hashlib
import importlib.machinery
import importlib.util
import json
import os
import re
import resource
import subprocess
import sys
import time
from concurrent.futures import FIRST_COMPLETED, ThreadPoolExecutor, wait

TOP = os.path.realpath(os.path.join(os.path.dirname(os.path.realpath(__file__)), '..'))
KEPT = os.path.join(TOP, '.git', 'gate')
PARTS = ('proof', 'tests', 'edits')
MARK = 'measured '


# One part of one crate, in a process of its own.


def load_rt():
    page = subprocess.run(['rt', 'doc'], capture_output=True, text=True, check=True).stdout.strip()
    loader = importlib.machinery.SourceFileLoader('rt_main', os.path.join(os.path.dirname(page), 'bin', 'rt'))
    rt = importlib.util.module_from_spec(importlib.util.spec_from_loader('rt_main', loader))
    sys.modules['rt_main'] = rt
    loader.exec_module(rt)
    return rt


def load_crates(rt):
    """All crates of the repository, by name. What is below a crate, and its sum, are computed once: `rt` walks every path to it."""
    known, sums, stamp_of = {}, {}, rt.rtlib.Crate.stamp

    def below(self):
        if self.folder not in known:
            found = []
            for dep in self.deps:
                found += [it for it in [*dep.below(), dep] if it not in found]
            known[self.folder] = found
        return known[self.folder]

    def stamp(self):
        if self.folder not in sums:
            sums[self.folder] = stamp_of(self)
        return sums[self.folder]

    rt.rtlib.Crate.below = rt.Crate.below = below
    rt.rtlib.Crate.stamp = rt.Crate.stamp = stamp
    rt.rtlib.stop = rt.stop
    rt.rtlib.Crate = rt.Crate
    rt.Crate.cuts_libraries = True
    rt.Crate.allowed = rt.handles_of(TOP)
    rt.rtlib.guarded()
    return {it.name: it for it in rt.rtlib.crates_below(TOP)}


def prove(name, part, jobs):
    """Does one part of a crate, says how it went, and ends with its status."""
    os.chdir(TOP)
    rt = load_rt()
    crate = load_crates(rt)[name]
    os.makedirs(f'{crate.folder}/out', exist_ok=True)
    began, status = time.time(), 1
    try:
        if part == 'edits':
            good, bad = rt.edits_of(crate)
            tried = rt.must_fail_all(crate, good, ['--jobs', '1'])
            print('\n'.join(text for _, text in tried))
            status = int(bool(bad) or not all(is_refused for is_refused, _ in tried))
        elif part == 'proof' and rt.rtlib.fmt(crate.folder, '--check', crate.out):
            print('run rt fmt in the folder of the crate')
        else:
            status = crate.ci(['--jobs', str(jobs)], part == 'tests')
    except SystemExit as why:
        print(why)
    spent = resource.getrusage(resource.RUSAGE_CHILDREN)
    print(MARK + json.dumps({'status': status, 'seconds': spent.ru_utime + spent.ru_stime, 'wall': time.time() - began}))
    return status


# What there is to do.


def files_of(name, *parts):
    return sorted(it for part in parts for it in glob.glob(f'{TOP}/crates/{name}/{part}/**/*', recursive=True) if os.path.isfile(it))


def read_list():
    """The crates of crates.txt, each with those of the repository that it names."""
    known = {}
    with open(f'{TOP}/crates.txt', encoding='utf-8') as file:
        for line in file:
            head, _, deps = line.partition('#')[0].partition(':')
            if head.strip():
                known[head.split()[0]] = deps.split()
    return {name: [dep for dep in deps if dep in known] for name, deps in known.items()}


class Plan:
    def __init__(self, wanted, first, parts):
        self.deps, self.under, self.sums = read_list(), {}, {}
        unknown = [it for it in [*wanted, *first] if it not in self.deps]
        if unknown:
            sys.exit(f'gate.py: no such crate: {unknown[0]}')
        names = self.with_below(wanted) if wanted else set(self.deps)
        self.first = self.with_below(first)
        self.tasks = {}
        for name in self.deps:
            if name in names:
                for part in PARTS:
                    if part in parts and self.has(name, part):
                        self.tasks[name, part] = [(it, 'proof') for it in self.below(name)] + [(name, 'proof')] * (part == 'edits')
        self.behind = self.chains()

    def below(self, name):
        if name not in self.under:
            self.under[name] = set().union(*({it} | self.below(it) for it in self.deps[name]))
        return self.under[name]

    def with_below(self, names):
        return set().union(*({it} | self.below(it) for it in names))

    def has(self, name, part):
        if part == 'edits':
            return bool(glob.glob(f'{TOP}/crates/{name}/must-fail/*.edit'))
        if part == 'tests':
            return any(b'#[test]' in open(it, 'rb').read() for it in files_of(name, 'src') if it.endswith('.rt'))
        return True

    def stamp(self, name):
        """A sum of all that the crate is made from, with that of the crates below it."""
        if name not in self.sums:
            made = hashlib.sha256()
            for path in files_of(name, 'src', 'specs', 'proofs'):
                made.update(os.path.relpath(path, TOP).encode())
                made.update(open(path, 'rb').read())
            for dep in self.deps[name]:
                made.update((dep + self.stamp(dep)).encode())
            self.sums[name] = made.hexdigest()
        return self.sums[name]

    def stamp_of(self, key):
        made = hashlib.sha256(self.stamp(key[0]).encode())
        if key[1] == 'edits':
            for path in files_of(key[0], 'must-fail'):
                made.update(open(path, 'rb').read())
        return made.hexdigest()

    def weight(self, key):
        """The seconds that it took the last time, or a guess by its lines."""
        last = read_kept(key)
        if last and last['seconds']:
            return last['seconds']
        lines = sum(open(it, 'rb').read().count(b'\n') for it in files_of(key[0], 'src'))
        return 20 + lines / 6

    def chains(self):
        """The seconds of the longest chain that begins with each part."""
        above = {it: [] for it in self.tasks}
        for key, waits in self.tasks.items():
            for it in waits:
                if it in above:
                    above[it].append(key)
        behind = {}
        for key in sorted(self.tasks, key=lambda it: (-len(self.below(it[0])), it[1] == 'proof')):
            behind[key] = self.weight(key) + max((behind[it] for it in above[key]), default=0)
        return behind

    def order(self, key):
        return key[0] not in self.first or key[1] != 'proof', -self.behind[key]


def kept_at(key):
    return f'{KEPT}/{key[0]}.{key[1]}'


def read_kept(key):
    try:
        with open(kept_at(key), encoding='utf-8') as file:
            return json.load(file)
    except (OSError, ValueError):
        return None


def stands(plan, key, done):
    last = read_kept(key)
    is_built = key[1] != 'proof' or os.path.isdir(f'{TOP}/crates/{key[0]}/out')
    return bool(last) and last['status'] == 0 and is_built and last['stamp'] == plan.stamp_of(key) and all(done.get(it) == 0 for it in plan.tasks[key])


def carry_out(plan, key, jobs):
    """Runs one part and keeps what came of it."""
    stamp = plan.stamp_of(key)
    with open(f'{kept_at(key)}.log', 'w+', encoding='utf-8') as log:
        subprocess.run([sys.executable, __file__, '--one', *key, str(jobs)], stdout=log, stderr=subprocess.STDOUT, stdin=subprocess.DEVNULL)
        log.seek(0)
        told = re.findall(rf'^{MARK}(.*)$', log.read(), re.M)
    made = json.loads(told[-1]) if told else {'status': 1, 'seconds': 0, 'wall': 0}
    made['stamp'] = stamp
    with open(kept_at(key), 'w', encoding='utf-8') as file:
        json.dump(made, file)
    return made


def carry_out_all(plan, lanes, done):
    """Runs all parts that are left, as many at a time as there are lanes. A proof that no other part waits beside gets the lanes that are free."""
    left, running = sorted((it for it in plan.tasks if it not in done), key=plan.order), {}
    with ThreadPoolExecutor(lanes) as pool:
        while left or running:
            for key in [it for it in left if any(done.get(dep, 0) for dep in plan.tasks[it])]:
                left.remove(key)
                done[key] = 1
                print(f'{key[0]} {key[1]}: not tried, since a crate below it failed', flush=True)
            ready = [it for it in left if all(done.get(dep) == 0 for dep in plan.tasks[it])]
            for at, key in enumerate(ready):
                idle = lanes - sum(jobs for _, jobs in running.values())
                if idle > 0:
                    left.remove(key)
                    jobs = 1 if key[1] == 'edits' else max(1, min(4, idle // (len(ready) - at)))
                    running[pool.submit(carry_out, plan, key, jobs)] = key, jobs
            for it in wait(running, return_when=FIRST_COMPLETED).done:
                (name, part), made = running.pop(it)[0], it.result()
                done[name, part] = made['status']
                word = 'passed' if made['status'] == 0 else f'FAILED: see {kept_at((name, part))}.log'
                print(f'{time.strftime("%H:%M:%S")} {name} {part}: {word}, {made["seconds"]:.0f} s of {made["wall"]:.0f}; {len(left)} wait', flush=True)


def run_all(names):
    """Runs the programs and tests that are built, and counts those that fail."""
    os.chdir(TOP)
    rt = load_rt()
    failed = 0
    for name, crate in load_crates(rt).items():
        for tests in (False, True):
            made = f'{crate.folder}/out/{name}{"_tests" if tests else ""}'
            if name in names and (tests or crate.is_program):
                rt.read_files(crate)
                failed += sum(not rt.run(crate, tests, it) for it in rt.BACKENDS.values() if os.path.isfile(made + it))
    return failed


def store(plan):
    """Writes the seconds of checks and tests to docs/costs.tsv."""
    path = f'{TOP}/docs/costs.tsv'
    with open(path, encoding='utf-8') as file:
        lines = [it.rstrip('\n').split('\t') for it in file]
    old = {it[1]: it for it in lines if it[0] == 'crate'}
    rows = []
    for name in plan.deps:
        words = old.get(name, ['crate', name, '', '', 'earlier'])
        for at, part in ((2, 'proof'), (3, 'tests')):
            made = read_kept((name, part)) if plan.has(name, part) else None
            if made and made['status'] == 0:
                words[at], words[4] = f'{made["seconds"]:.1f}', 'gate'
        rows.append(words)
    with open(path, 'w', encoding='utf-8') as file:
        file.writelines('\t'.join(it) + '\n' for it in [*(it for it in lines if it[0] != 'crate'), *rows])


def main():
    parser = argparse.ArgumentParser(description=__doc__, formatter_class=argparse.RawDescriptionHelpFormatter)
    parser.add_argument('--lanes', type=int, default=os.cpu_count())
    parser.add_argument('--only', default='')
    parser.add_argument('--first', default='')
    parser.add_argument('--parts', default=','.join(PARTS))
    parser.add_argument('--run', action='store_true')
    parser.add_argument('--store', action='store_true')
    parser.add_argument('--dry', action='store_true')
    parser.add_argument('--one', nargs=3, help=argparse.SUPPRESS)
    given = parser.parse_args()
    if given.one:
        return prove(*given.one)
    words = lambda text: [it for it in text.split(',') if it]
    os.makedirs(KEPT, exist_ok=True)
    plan, done = Plan(words(given.only), words(given.first), words(given.parts)), {}
    for key in sorted(plan.tasks, key=lambda it: (len(plan.below(it[0])), it[1] != 'proof')):
        if stands(plan, key, done):
            done[key] = 0
    print(f'{len(done)} stand, {len(plan.tasks) - len(done)} are to be done', flush=True)
    if given.dry:
        print('\n'.join(f'{name} {part}' for name, part in sorted(set(plan.tasks) - set(done), key=plan.order)))
        return 0
    carry_out_all(plan, given.lanes, done)
    failed = sum(1 for it in done.values() if it)
    failed += run_all({name for name, _ in done}) if given.run else 0
    if given.store:
        store(plan)
    print(f'{sum(1 for it in done.values() if not it)} passed, {failed} failed')
    return int(failed > 0)


if __name__ == '__main__':
    sys.exit(main())
