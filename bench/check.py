#!/usr/bin/env python3
"""Times `check` on generated files against javac and, where its jar is given, ecj, in one run: wall time with the start of the process, the least of some runs,
and processor time, which says more where other work goes on.

  check.py [--bin PATH] [--files N] [--runs N] [--ecj JAR]

Prints what `check` takes of the time of each, and then its time and memory for sources of 1 to 16 MB, whose time a token should be the same.
"""
import argparse
import glob
import os
import re
import subprocess
import sys
import tempfile
import time

sys.path.insert(0, os.path.dirname(os.path.abspath(__file__)))
from generated import OURS, write_files

TOKEN = re.compile(r'//.*|"[^"]*"|\w+|[^\s\w]')


def spent(words, runs, environment=None):
    """The least wall time and processor time of some runs, and the most memory in MB."""
    best, busy, most = float('inf'), float('inf'), 0
    for _ in range(runs):
        start = time.perf_counter()
        process = subprocess.Popen(words, env=environment, stdout=subprocess.PIPE, stderr=subprocess.STDOUT)
        said = process.stdout.read()
        _, status, usage = os.wait4(process.pid, 0)
        process.returncode = os.waitstatus_to_exitcode(status)
        best, busy, most = min(best, time.perf_counter() - start), min(busy, usage.ru_utime + usage.ru_stime), max(most, usage.ru_maxrss / 1024)
        if process.returncode:
            sys.exit(f'{words[0]} ends with {process.returncode}: {said[-300:]!r}')
    return best, busy, most


def peers(folder, ecj):
    """The commands that are timed beside it, by name."""
    out = os.path.join(folder, 'out')
    names = os.path.join(folder, 'names')
    with open(names, 'w') as file:
        file.write('\n'.join(sorted(glob.glob(os.path.join(folder, 'src', 'g', '*.java')))))
    yield 'javac', ['javac', '-proc:none', '-d', out, '@' + names]
    if ecj:
        yield 'ecj', ['java', '-cp', ecj, 'org.eclipse.jdt.internal.compiler.batch.Main', '-source', '1.5', '-target', '1.5', '-proc:none', '-nowarn', '-d', out, '@' + names]


def main():
    parser = argparse.ArgumentParser(description=__doc__, formatter_class=argparse.RawDescriptionHelpFormatter)
    top = os.path.join(os.path.dirname(os.path.abspath(__file__)), '..')
    parser.add_argument('--bin', default=os.path.join(top, 'crates', 'refactor', 'out', 'refactor'))
    parser.add_argument('--files', type=int, default=4000)
    parser.add_argument('--runs', type=int, default=3)
    parser.add_argument('--ecj')
    args = parser.parse_args()
    with tempfile.TemporaryDirectory() as folder:
        src = os.path.join(folder, 'src')
        total = write_files(src, args.files)
        ours, busy, memory = spent([args.bin, src, 'check'], args.runs, OURS)
        print(f'{args.files} files, {total} bytes: check {ours:.3f} s, processor {busy:.3f} s, {memory:.0f} MB', flush=True)
        for name, words in peers(folder, args.ecj):
            theirs, its, used = spent(words, args.runs)
            print(f'  {name:6} {theirs:7.3f} s, processor {its:7.3f} s, {used:5.0f} MB; check takes {ours / theirs:.3f} of its time, {busy / its:.3f} of its processor time', flush=True)
    for megabytes in (1, 2, 4, 8, 16):
        with tempfile.TemporaryDirectory() as folder:
            total = write_files(os.path.join(folder, 'src'), megabytes * 64, 113)
            texts = [open(p).read() for p in glob.glob(os.path.join(folder, 'src', 'g', '*'))]
            tokens = sum(not token.startswith('//') for t in texts for token in TOKEN.findall(t))
            ours, busy, memory = spent([args.bin, os.path.join(folder, 'src'), 'check'], args.runs, OURS)
            print(f'{total:9} bytes, {tokens:8} tokens: {ours:7.3f} s, processor {busy:7.3f} s, {memory:5.0f} MB, {busy / tokens * 1e9:6.0f} ns a token', flush=True)


if __name__ == '__main__':
    main()
