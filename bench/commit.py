#!/usr/bin/env python3
"""The cost of a commit of 1, 100 and 4,000 files on a real folder.

    bench/commit.py [--trial PATH] [--turns N]

For each number of files the program `test_commit_run` changes files of about 1 KB. Printed are the least time of some turns, the
time a file, and, where `strace` is there, how many times the system was asked to put bytes on the disk (fsync): two for the
journal and the gate each, one for each file, and a few for folders. `commit` calls the store's `sync` four times whatever the
number of files (journal, gate, steps, gate); the store of a folder has then put each write on the disk already.
"""
import argparse
import os
import shutil
import subprocess
import sys
import time

HERE = os.path.dirname(os.path.abspath(__file__))
sys.path.insert(0, os.path.join(HERE, '..', 'tools'))
from trial import make_folder  # noqa: E402
OLD, NEW = 'class A { int a; }' * 55, 'class A { int b; }' * 55


def main():
    parser = argparse.ArgumentParser()
    parser.add_argument('--trial', default=os.path.join(HERE, '..', 'crates', 'test_commit_run', 'out', 'test_commit_run'))
    parser.add_argument('--turns', type=int, default=3)
    given = parser.parse_args()
    for count in (1, 100, 4000):
        words = lambda folder: [given.trial, folder, str(count), OLD, NEW]
        least = None
        for _ in range(given.turns):
            folder = make_folder(count, OLD)
            start = time.perf_counter()
            subprocess.run(words(folder), stdout=subprocess.DEVNULL, check=True)
            took = time.perf_counter() - start
            least = took if least is None else min(least, took)
            shutil.rmtree(folder)
        line = f'{count:5} files: {least * 1000:8.1f} ms, {least * 1e6 / count:8.1f} us a file'
        if shutil.which('strace'):
            folder = make_folder(count, OLD)
            told = subprocess.run(['strace', '-c', '-e', 'trace=fsync,fdatasync', *words(folder)], stdout=subprocess.DEVNULL, stderr=subprocess.PIPE, check=False)
            rows = [row.split() for row in told.stderr.decode().splitlines()]
            line += f", {sum(int(row[3]) for row in rows if row and row[-1] in ('fsync', 'fdatasync'))} fsync"
            shutil.rmtree(folder)
        print(line)


main()
