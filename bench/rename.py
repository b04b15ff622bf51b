#!/usr/bin/env python3
"""Times `rename` on files of 1 KB to 64 KB, and says whether the time grows no faster than n log n; on generated files against `check`; and in a batch.

    bench/rename.py [--bin PATH] [--runs N] [--files N] [--batch N]

Two shapes of a file are timed: many short methods, and one method with many locals. The time of an empty command
(`--version`) is taken off. Then one rename in so many generated files is timed, of a parameter and of a method that the next class calls, and a batch of
1,024 renames in others. The last line is 'ok', with status 0, where for each shape the time per n log n at the largest size is at most twice that at the
second size, from where on the start of the process no longer counts, and one rename takes at most twice the processor time of a `check`.
"""
import argparse
import json
import math
import os
import resource
import subprocess
import sys
import tempfile
import time

sys.path.insert(0, os.path.dirname(os.path.abspath(__file__)))
from generated import OURS, class_text, write_files

REQUESTS = 1024
SIZES = [1, 2, 4, 8, 16, 32, 64]


def many_methods(size):
    """Methods one after another until the file has about `size` bytes."""
    parts, length, i = ['class A {'], 10, 0
    while True:
        part = f' static int f{i}(int a, int b) {{ int c = a + b; return c + a + 1; }}'
        if length + len(part) + 2 > size:
            return ''.join(parts) + ' }'
        parts.append(part)
        length += len(part)
        i += 1


def many_locals(size):
    """One method whose locals each use the parameter and the local before."""
    parts, length, last, i = ['class A { static int f(int a) {'], 40, 'a', 0
    while True:
        part = f' int v{i} = a + {last};'
        if length + len(part) + 24 > size:
            return ''.join(parts) + f' return {last}; }} }}'
        parts.append(part)
        length += len(part)
        last, i = f'v{i}', i + 1


def run(words, said=b''):
    start = time.perf_counter()
    # as the script `refactor` runs it
    done = subprocess.run(words, input=said, stdout=subprocess.PIPE, env=OURS)
    return time.perf_counter() - start, done


def timed(program, text, runs):
    """The least time of the runs, each on a new folder."""
    offset = text.index('int a') + 4
    best = math.inf
    for _ in range(runs):
        with tempfile.TemporaryDirectory() as folder:
            with open(os.path.join(folder, 'A.java'), 'w') as file:
                file.write(text)
            seconds, done = run([program, folder, 'rename', 'A.java', str(offset), 'renamed'])
            if done.stdout != b'done, files changed: 1\n' or done.returncode != 0:
                sys.exit(f'{len(text)} bytes: {done.stdout!r}, status {done.returncode}')
            best = min(best, seconds)
    return best


def busy():
    spent = resource.getrusage(resource.RUSAGE_CHILDREN)
    return spent.ru_utime + spent.ru_stime


def generated(program, files, words, runs, said=b''):
    """The least time and processor time of the runs of a command on generated files, each on a new folder, and its answer."""
    best, least = math.inf, math.inf
    for _ in range(runs):
        with tempfile.TemporaryDirectory() as folder:
            write_files(folder, files)
            before = busy()
            seconds, done = run([program, folder] + words, said)
            best, least = min(best, seconds), min(least, busy() - before)
            if done.returncode != 0:
                sys.exit(f'{words}: {done.stdout!r}, status {done.returncode}')
    return best, least, done.stdout.decode().strip()


def at(files, i, before):
    """File and offset of what stands behind some text of a generated class."""
    i %= files
    return f'g/C{i}.java', class_text(i).index(before) + len(before)


def batch(files):
    """A batch that renames locals and parameters to names of the same length."""
    requests = []
    for i in range(REQUESTS):
        before, name = [('    int ', 'd'), ('step(int ', 'e'), ('next(int ', 'z'), ('  int ', 'w')][i // files % 4]
        file, offset = at(files, i, before)
        requests.append({'do': 'rename', 'file': file, 'at': offset, 'name': name})
    return json.dumps(requests).encode()


def compare(program, files, runs):
    """Prints what a rename takes of the time of a check; whether it is too much."""
    wall, check, _ = generated(program, files, ['check'], runs)
    print(f'{files} files: check {wall:.3f} s, processor {check:.3f} s', flush=True)
    worst = 0
    for what, before in (('a parameter', 'step(int '), ('a method', 'static int ')):
        file, offset = at(files, 1, before)
        wall, spent, said = generated(program, files, ['rename', file, str(offset), 'renamed'], runs)
        worst = max(worst, spent / check)
        print(f'  rename of {what}: {wall:.3f} s, processor {spent:.3f} s, {spent / check:.2f} times a check ({said})', flush=True)
    return worst > 2


def main():
    parser = argparse.ArgumentParser()
    top = os.path.join(os.path.dirname(os.path.abspath(__file__)), '..')
    parser.add_argument('--bin', default=os.path.join(top, 'crates', 'refactor', 'out', 'refactor'))
    parser.add_argument('--runs', type=int, default=5)
    parser.add_argument('--files', type=int, default=4000)
    parser.add_argument('--batch', type=int, default=1000)
    arguments = parser.parse_args()
    empty = min(run([arguments.bin, '--version'])[0] for _ in range(arguments.runs))
    print(f'an empty command: {empty * 1000:.2f} ms')
    grows = False
    for shape in (many_methods, many_locals):
        print(shape.__name__)
        rates = []
        for size in SIZES:
            text = shape(size * 1024)
            seconds = max(timed(arguments.bin, text, arguments.runs) - empty, 1e-6)
            rates.append(seconds / (len(text) * math.log2(len(text))))
            print(f'  {len(text):6} bytes: {seconds * 1000:9.2f} ms, {rates[-1] * 1e9:8.2f} ns per n log n')
        grows = grows or rates[-1] > 2 * rates[1]
    slow = compare(arguments.bin, arguments.files, arguments.runs)
    wall, spent, said = generated(arguments.bin, arguments.batch, ['batch'], 1, batch(arguments.batch))
    print(f'{arguments.batch} files: a batch of {REQUESTS} renames {wall:.1f} s, processor {spent:.1f} s ({said})')
    if grows:
        print('the time grows faster than n log n')
    if slow:
        print('a rename takes more than twice the time of a check')
    if not grows and not slow:
        print('ok')
    return 1 if grows or slow else 0


if __name__ == '__main__':
    sys.exit(main())
