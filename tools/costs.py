#!/usr/bin/env python3
"""What each crate costs the gate, as docs/COSTS.md.

    costs.py --measure CRATE..    measures these crates, or all with the word `all`, and stores the seconds in docs/costs.tsv
    costs.py --gate N MINUTES     stores the wall minutes that a whole `rt ci --anew` took on N processors
    costs.py --build N MINUTES    stores the wall minutes that a build of the program with its proofs took on N processors
    costs.py --compile MINUTES    stores the processor minutes that the first build of the program took, which compiles the sources as they are
    costs.py --write              writes the tables of docs/COSTS.md from what is stored

A measurement is one check from nothing at one job, in processor seconds, and where the crate has tests one of them likewise.
The crates below have to be built: `rt check` of the crate does that. Nothing else should run beside it.
With --loads a measurement also lists the ten modules of the check that took longest, with their sizes.
"""
import argparse
import glob
import importlib.util
import os
import re
import resource
import shutil
import subprocess
import sys
import tempfile

sys.path.insert(0, os.path.dirname(os.path.realpath(__file__)))
import schedule

TOP = os.path.realpath(os.path.join(os.path.dirname(os.path.realpath(__file__)), '..'))
STORED = os.path.join(TOP, 'docs', 'costs.tsv')
PAGE = os.path.join(TOP, 'docs', 'COSTS.md')
PROGRAM = 'refactor'
# The numbers of processors for which a whole gate is told.
PROCESSORS = (4, 2)
# How many processors the build of the program keeps busy, which proves one crate after the other.
BUILDING = 2


def crates_of():
    """The crates of crates.txt in its order, each with those of the repository that it names."""
    known = {}
    with open(f'{TOP}/crates.txt', encoding='utf-8') as file:
        for line in file:
            head, _, deps = line.partition('#')[0].partition(':')
            if head.strip():
                known[head.split()[0]] = deps.split()
    return {name: [dep for dep in deps if dep in known] for name, deps in known.items()}


def below(crates, name):
    """The crate and all below it."""
    found, left = set(), [name]
    while left:
        crate = left.pop()
        if crate not in found:
            found.add(crate)
            left += crates.get(crate, [])
    return found


def lines_of(pattern):
    total = 0
    for path in glob.glob(f'{TOP}/crates/{pattern}', recursive=True):
        with open(path, 'rb') as file:
            total += file.read().count(b'\n')
    return total


def edits_of(crate, folder):
    return len(glob.glob(f'{TOP}/crates/{crate}/{folder}/*.edit'))


# What is stored: a line a fact, its words apart by tabs.


def load():
    stored = {'machine': '', 'rt': '', 'gates': {}, 'builds': {}, 'compile': None, 'crates': {}}
    if not os.path.exists(STORED):
        return stored
    with open(STORED, encoding='utf-8') as file:
        for line in file:
            words = line.rstrip('\n').split('\t')
            if words[0] in ('machine', 'rt'):
                stored[words[0]] = words[1]
            elif words[0] == 'gate':
                stored['gates'][int(words[1])] = float(words[2])
            elif words[0] == 'build':
                stored['builds'][int(words[1])] = float(words[2])
            elif words[0] == 'compile':
                stored['compile'] = float(words[1])
            elif words[0] == 'crate':
                check, tests = (float(it) if it else None for it in words[2:4])
                stored['crates'][words[1]] = check, tests, words[4]
    return stored


def store(stored):
    with open(STORED, 'w', encoding='utf-8') as file:
        for key in ('machine', 'rt'):
            file.write(f'{key}\t{stored[key]}\n')
        for number, minutes in sorted(stored['gates'].items()):
            file.write(f'gate\t{number}\t{minutes:g}\n')
        for number, minutes in sorted(stored['builds'].items()):
            file.write(f'build\t{number}\t{minutes:g}\n')
        if stored['compile']:
            file.write(f'compile\t{stored["compile"]:g}\n')
        for name, (check, tests, how) in stored['crates'].items():
            seconds = ['' if it is None else f'{it:.1f}' for it in (check, tests)]
            file.write('\t'.join(['crate', name, *seconds, how]) + '\n')


def machine():
    with open('/proc/cpuinfo', encoding='utf-8') as file:
        found = re.search(r'^model name\s*:\s*(.*)$', file.read(), re.M)
    return f'{os.cpu_count()} processors, {found[1].strip() if found else "model unknown"}'


# Measuring.


def load_kit():
    ran = subprocess.run(['rt', 'doc'], capture_output=True, text=True, check=True)
    kit = os.path.dirname(ran.stdout.strip())
    sys.path.insert(0, f'{kit}/bin')
    spec = importlib.util.spec_from_file_location('rtlib', f'{kit}/bin/rtlib.py')
    rtlib = importlib.util.module_from_spec(spec)
    sys.modules['rtlib'] = rtlib
    spec.loader.exec_module(rtlib)
    return rtlib


def used():
    spent = resource.getrusage(resource.RUSAGE_CHILDREN)
    return spent.ru_utime + spent.ru_stime


def print_loads(kept):
    """The ten modules with the longest time since the one before."""
    modules = []
    for folder, _, files in os.walk(kept):
        for name in files:
            if name.endswith('.oantt') and not folder.endswith('records'):
                seen = os.stat(f'{folder}/{name}')
                modules.append((seen.st_mtime, seen.st_size, re.sub(r'^Rattle-\w+?-|\.oantt$', '', name)))
    modules.sort()
    gaps = [(now[0] - before[0], now[1], now[2]) for before, now in zip(modules, modules[1:])]
    for gap, size, name in sorted(gaps, reverse=True)[:10]:
        print(f'{gap:8.1f} s {size / 1e6:8.1f} MB  {name}')


def seconds_of(rtlib, crate, tests, loads):
    """The processor seconds of one check from nothing, or None where it fails."""
    kept = tempfile.mkdtemp(prefix='costs-')
    try:
        words = crate.words(['--jobs', '1'], tests=tests, keeps=False)
        before = used()
        ran = subprocess.run([rtlib.RATTLE, 'check', *words, '--incremental', kept], cwd=crate.folder,
                             stdout=subprocess.PIPE, stderr=subprocess.STDOUT, stdin=subprocess.DEVNULL, text=True, errors='replace')
        if loads:
            print_loads(kept)
        if ran.returncode:
            print('\n'.join(ran.stdout.rstrip('\n').split('\n')[-5:]), file=sys.stderr)
            return None
        return used() - before
    finally:
        shutil.rmtree(kept, ignore_errors=True)


def measure(names, loads):
    crates = crates_of()
    names = list(crates) if names == ['all'] else names
    unknown = [it for it in names if it not in crates]
    if unknown:
        sys.exit(f'costs.py: no such crate: {unknown[0]}')
    rtlib = load_kit()
    os.chdir(TOP)
    known = {it.name: it for it in rtlib.crates_below(TOP)}
    version = subprocess.run(['rt', 'version'], capture_output=True, text=True, check=True).stdout.strip()
    failed = []
    for name in names:
        crate = known[name]
        lacking = [it.name for it in crate.below() if not it.is_built()]
        if lacking:
            print(f'{name}: not measured, since {lacking[0]} is not built: run rt check of {name} first', file=sys.stderr)
            failed.append(name)
            continue
        check = seconds_of(rtlib, crate, False, loads)
        tests = seconds_of(rtlib, crate, True, loads) if check is not None and crate.has_tests() else None
        if check is None or (tests is None and crate.has_tests()):
            failed.append(name)
            continue
        # (another run may have stored something meanwhile)
        stored = load()
        stored['machine'], stored['rt'] = machine(), version
        stored['crates'][name] = check, tests, 'measured'
        store(stored)
        print(f'{name}: {check:.0f} processor seconds' + (f', tests {tests:.0f}' if tests is not None else ''), flush=True)
    return failed


# Writing.


def edits_cost(check, count):
    """Estimated: one edit costs a check. More cost a check that they begin with, and for each, and once at the end, ten seconds and a tenth of a check."""
    if count < 2:
        return check * count
    return check + (count + 1) * min(check, 10 + check / 10)


def minutes(seconds):
    return f'{seconds / 60:.0f}'


def shown(seconds, is_rough=False):
    if seconds is None:
        return ''
    return f'{"~" if is_rough else ""}{seconds:.0f}'


def rows_of(crates, stored):
    for name in crates:
        check, tests, how = stored['crates'].get(name, (None, None, ''))
        has_tests = any(b'#[test]' in open(it, 'rb').read() for it in glob.glob(f'{TOP}/crates/{name}/src/**/*.rt', recursive=True))
        yield {
            'name': name,
            'code': lines_of(f'{name}/src/**/*.rt'),
            'laws': lines_of(f'{name}/specs/**/*.antt') + lines_of(f'{name}/proofs/**/*.antt'),
            'check': check,
            'tests': tests if has_tests else None,
            'is_rough': how != 'measured',
            'lacks': [it for it, is_wanted in (('check', check is None), ('tests', has_tests and tests is None)) if is_wanted],
            'edits': edits_of(name, 'must-fail'),
            'others': edits_of(name, 'edits'),
        }


def sums_of(rows, crates):
    """The seconds of a whole gate by parts, and those of a build of the program with its proofs."""
    needed = below(crates, PROGRAM)
    return {
        'check': sum(it['check'] or 0 for it in rows),
        'tests': sum(it['tests'] or 0 for it in rows),
        'edits': sum(edits_cost(it['check'] or 0, it['edits']) for it in rows),
        'build': sum(it['check'] or 0 for it in rows if it['name'] in needed),
    }


def gate_lines(stored, rows, crates):
    seconds = {it['name']: {'check': it['check'] or 0, 'tests': it['tests'] or 0, 'edits': edits_cost(it['check'] or 0, it['edits'])} for it in rows}
    for number in PROCESSORS:
        if number in stored['gates']:
            yield f'- A whole gate from nothing took {stored["gates"][number]:g} minutes on {number} processors, measured.'
        else:
            took = max(schedule.ends(crates, seconds, number).values())
            yield f'- A whole gate from nothing takes some {minutes(took)} minutes on {number} processors: its schedule played through over these figures, with the sums of libraries on a quiet machine (`tools/schedule.py`).'


def build_line(stored, whole):
    if not stored['builds']:
        return f'- A program that is proved first takes some {minutes(whole)} processor minutes, {minutes(whole / BUILDING)} minutes where two or more are free.'
    took = ' and '.join(f'{it:g} minutes on {number} processors' for number, it in sorted(stored['builds'].items(), reverse=True))
    return f'- A program that is proved first takes {minutes(whole)} processor minutes, and took {took}.'


def compile_line(stored):
    return f'- The first build of the program takes {stored["compile"]:g} processor minutes: it is compiled, and not proved.'


def page_of(stored, crates):
    rows = list(rows_of(crates, stored))
    sums = sums_of(rows, crates)
    whole = sums['check'] + sums['tests'] + sums['edits']
    lacking = [f'{it["name"]} ({" and ".join(it["lacks"])})' for it in rows if it['lacks']]
    yield f'Machine: {stored["machine"] or "not measured yet"}. `rt version`: {stored["rt"] or "not measured yet"}.'
    yield ''
    yield f'- Checks take {minutes(sums["check"])} processor minutes, tests {minutes(sums["tests"])}, and must-fail edits some {minutes(sums["edits"])}. The whole is {minutes(whole)}.'
    yield from gate_lines(stored, rows, crates)
    if stored['compile']:
        yield compile_line(stored)
    yield build_line(stored, sums['build'])
    if any(it['is_rough'] and it['check'] is not None for it in rows):
        yield '- A figure with ~ was not measured by the script: it was read off an earlier gate, beside other work.'
    if lacking:
        yield f'- Not measured, and not in the sums: {", ".join(lacking)}.'
    yield ''
    yield 'Check and tests are processor seconds at one job. Code counts the lines of `src`, specs and lemmas those of `specs` and `proofs`. Edits are those that the gate tries, and others those in `edits`.'
    yield ''
    yield '| Crate | Code | Specs and lemmas | Check | Tests | Edits | Others |'
    yield '|---|---:|---:|---:|---:|---:|---:|'
    for it in rows:
        tests = shown(it['tests'], it['is_rough'])
        yield f'| `{it["name"]}` | {it["code"]} | {it["laws"]} | {shown(it["check"], it["is_rough"])} | {tests} | {it["edits"] or ""} | {it["others"] or ""} |'
    total = {key: sum(it[key] for it in rows) for key in ('code', 'laws', 'edits', 'others')}
    yield f'| all {len(rows)} | {total["code"]} | {total["laws"]} | {sums["check"]:.0f} | {sums["tests"]:.0f} | {total["edits"]} | {total["others"]} |'


BEGIN, END = '<!-- written by tools/costs.py: begin -->', '<!-- written by tools/costs.py: end -->'


def write():
    text = '\n'.join(page_of(load(), crates_of()))
    with open(PAGE, encoding='utf-8') as file:
        before, _, rest = file.read().partition(BEGIN)
    _, found, after = rest.partition(END)
    if not found:
        sys.exit(f'costs.py: docs/COSTS.md has no two lines {BEGIN} and {END}')
    with open(PAGE, 'w', encoding='utf-8') as file:
        file.write(f'{before}{BEGIN}\n{text}\n{END}{after}')


def main():
    parser = argparse.ArgumentParser(description=__doc__, formatter_class=argparse.RawDescriptionHelpFormatter)
    parser.add_argument('--measure', nargs='+', metavar='CRATE')
    parser.add_argument('--loads', action='store_true')
    parser.add_argument('--gate', nargs=2, type=float, metavar=('N', 'MINUTES'))
    parser.add_argument('--build', nargs=2, type=float, metavar=('N', 'MINUTES'))
    parser.add_argument('--compile', type=float, metavar='MINUTES')
    parser.add_argument('--write', action='store_true')
    given = parser.parse_args()
    if not (given.measure or given.gate or given.build or given.compile or given.write):
        parser.error('give --measure, --gate, --build, --compile or --write')
    failed = measure(given.measure, given.loads) if given.measure else []
    for key, fact in (('gates', given.gate), ('builds', given.build)):
        if fact:
            stored = load()
            stored[key][int(fact[0])] = fact[1]
            store(stored)
    if given.compile:
        stored = load()
        stored['compile'] = given.compile
        store(stored)
    if given.write:
        write()
    if failed:
        sys.exit(f'costs.py: not measured: {" ".join(failed)}')


if __name__ == '__main__':
    main()
