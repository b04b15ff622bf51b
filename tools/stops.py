#!/usr/bin/env python3
"""Stops the running program at random moments of a rename, or of an undo of one, on a real folder, and looks at what recovery leaves.

    tools/stops.py [--bin PATH] [--stops N] [--seed N] [--undo]

Each turn makes a folder with one Java file of many methods, starts a rename in it, stops the program by SIGKILL after a
random time within the time that the rename takes, and runs one more command, which recovers. The file must then hold all old
or all new bytes. The last line says how many were old, new and torn; the status is 0 where none was torn. Not part of the gate.
"""
import argparse
import os
import random
import shutil
import signal
import subprocess
import sys
import tempfile
import time


def source(count):
    methods = ''.join(f' static int f{i}(int a, int b) {{ int c = a + b; return c + a + 1; }}' for i in range(count))
    return 'class A {' + methods + ' }'


def command(binary, folder, name):
    old = source(900)
    return [binary, folder, 'rename', 'A.java', str(old.index('(int a') + 5), name]


def made(binary, undo):
    """A new folder, where the next command is the one that is stopped, and that command."""
    folder = tempfile.mkdtemp()
    with open(os.path.join(folder, 'A.java'), 'w') as file:
        file.write(source(900))
    rename = command(binary, folder, 'renamed')
    if not undo:
        return folder, rename
    subprocess.run(rename, stdout=subprocess.DEVNULL, check=True)
    return folder, [binary, folder, 'undo']


def text(folder):
    with open(os.path.join(folder, 'A.java')) as file:
        return file.read()


def whole_time(binary, undo):
    folder, words = made(binary, undo)
    old = text(folder)
    start = time.perf_counter()
    subprocess.run(words, stdout=subprocess.DEVNULL, check=True)
    took = time.perf_counter() - start
    new = text(folder)
    shutil.rmtree(folder)
    return took, old, new


def main():
    here = os.path.dirname(os.path.abspath(__file__))
    parser = argparse.ArgumentParser()
    parser.add_argument('--bin', default=os.path.join(here, '..', 'crates', 'refactor', 'out', 'refactor'))
    parser.add_argument('--stops', type=int, default=200)
    parser.add_argument('--seed', type=int, default=1)
    parser.add_argument('--undo', action='store_true')
    given = parser.parse_args()
    chance = random.Random(given.seed)
    took, old, new = whole_time(given.bin, given.undo)
    seen = {'old': 0, 'new': 0, 'torn': 0}
    open_gates = 0
    for _ in range(given.stops):
        folder, words = made(given.bin, given.undo)
        running = subprocess.Popen(words, stdout=subprocess.DEVNULL)
        time.sleep(chance.random() * took * 1.2)
        running.send_signal(signal.SIGKILL)
        running.wait()
        open_gates += os.path.exists(os.path.join(folder, '.refactor-gate'))
        subprocess.run([given.bin, folder, 'check'], stdout=subprocess.DEVNULL, check=False)
        try:
            left = text(folder)
        except FileNotFoundError:
            left = None
        kind = 'old' if left == old else 'new' if left == new else 'torn'
        seen[kind] += 1
        if os.path.exists(os.path.join(folder, '.refactor-gate')):
            seen['torn'] += 1
        shutil.rmtree(folder)
    print(f'{"an undo" if given.undo else "a rename"} takes {took * 1000:.1f} ms; {given.stops} stops, {open_gates} of them with a gate that stands')
    print(f"old {seen['old']}, new {seen['new']}, torn {seen['torn']}")
    sys.exit(1 if seen['torn'] else 0)


main()
