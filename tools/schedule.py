"""How long `rt ci` takes from nothing on some processors, from the seconds of each crate: its schedule, played through.

`rt ci` (kit 13b) gives a processor to each part (proof, tests, edits of a crate) that waits for nothing, first to those with the most lines of code behind them,
and more than one where no other part is ready. A library's proof begins and ends with the sum of its files and of those of all crates below, by every path to them.
"""
import glob
import os

TOP = os.path.realpath(os.path.join(os.path.dirname(os.path.realpath(__file__)), '..'))
# The seconds that a file takes in a sum, on a quiet machine.
FILE = 0.00005
# How much faster a proof is with more processors.
FASTER = {1: 1.0, 2: 1.6, 3: 1.9, 4: 2.1}


def files_of(name, *parts):
    return [it for part in parts for it in glob.glob(f'{TOP}/crates/{name}/{part}/**/*', recursive=True) if os.path.isfile(it)]


def lines_of(name):
    return sum(open(it, 'rb').read().count(b'\n') for it in files_of(name, 'src'))


def sums_of(crates):
    """The seconds of the two sums of each library. A program has none."""
    known = {}

    def one(name):
        if name not in known:
            known[name] = FILE * len(files_of(name, 'src', 'specs', 'proofs')) + sum(one(it) for it in crates[name])
        return known[name]

    return {it: 0 if os.path.isfile(f'{TOP}/crates/{it}/src/main.rt') else 2 * one(it) for it in crates}


def below(crates):
    known = {}

    def one(name):
        if name not in known:
            known[name] = set().union(*({it} | one(it) for it in crates[name]))
        return known[name]

    return {it: one(it) for it in crates}


def parts_of(crates, seconds):
    """By crate and part: the parts that it waits for, its lines, its seconds in the prover, and those of its sums."""
    under, sums, parts = below(crates), sums_of(crates), {}
    for name in sorted(crates, key=lambda it: len(under[it])):
        waits, lines, own = [(it, 'proof') for it in under[name]], lines_of(name), seconds[name]
        parts[name, 'proof'] = waits, lines, own['check'], sums[name]
        parts[name, 'tests'] = waits, lines * bool(own['tests']), own['tests'], 0
        parts[name, 'edits'] = [(name, 'proof'), (name, 'tests')], lines * bool(own['edits']), own['edits'], 0
    return parts


def behind_of(parts):
    behind = {it: 0 for it in parts}
    for key in reversed(parts):
        behind[key] += parts[key][1]
        for it in parts[key][0]:
            behind[it] = max(behind[it], behind[key])
    return behind


def ends(crates, seconds, processors):
    """When each part ends, in seconds. `seconds` has of each crate `check`, `tests` and `edits`."""
    parts = parts_of(crates, seconds)
    behind = behind_of(parts)
    left, running, done, now = sorted(parts, key=lambda it: -behind[it]), {}, {}, 0
    while left or running:
        ready = [it for it in left if all(dep in done for dep in parts[it][0])]
        for at, key in enumerate(ready):
            idle = processors - sum(jobs for _, jobs in running.values())
            if idle > 0:
                left.remove(key)
                jobs = 1 if key[1] == 'edits' else max(1, min(4, idle // (len(ready) - at)))
                running[key] = now + parts[key][2] / FASTER[jobs] + parts[key][3], jobs
        now = min(end for end, _ in running.values())
        for key in [it for it, (end, _) in running.items() if end <= now]:
            done[key] = now
            del running[key]
    return done
