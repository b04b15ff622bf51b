#!/usr/bin/env python3
"""Stops a commit of hundreds of files on a real folder at random moments, and looks at what recovery leaves.

    tools/stops_many.py [--trial PATH] [--bin PATH] [--files N] [--stops N] [--seed N]

Each turn makes a folder with N Java files, and lets the program `test_commit_run` change each of them. It is stopped in one of
three ways: by SIGKILL after a random time; by SIGKILL at the K-th call of the system that changes the folder, a write then being
cut in half; or the K-th such call fails (an error of the disk), which ends the program by itself. The last two need a C compiler,
and are left out without one. Then `refactor DIR check` recovers. The files must then all be old or all be new, and no gate may
stand. The last line says how many were old, new and torn; the status is 0 where none was torn. Not part of the gate.
"""
import argparse
import os
import random
import shutil
import signal
import subprocess
import sys
import tempfile
import time

from trial import make_folder, path_of

HERE = os.path.dirname(os.path.abspath(__file__))
OLD, NEW = 'class A { int a; }' * 40, 'class A { int b; int c; }' * 50

# Counts the calls that change a folder, and at the call numbered STOP_AT fails it or stops the program there.
SHIM = r'''
#define _GNU_SOURCE
#include <dlfcn.h>
#include <errno.h>
#include <signal.h>
#include <stdlib.h>
#include <unistd.h>
#include <sys/types.h>
static long calls;
static int due(void) {
    const char *at = getenv("STOP_AT");
    return at != NULL && ++calls == atol(at);
}
static int stops(void) {
    const char *how = getenv("STOP_BY");
    return how != NULL && how[0] == 'k';
}
ssize_t write(int file, const void *bytes, size_t count) {
    ssize_t (*real)(int, const void *, size_t) = dlsym(RTLD_NEXT, "write");
    if (file > 2 && due()) {
        if (!stops()) { errno = EIO; return -1; }
        real(file, bytes, count / 2);
        kill(getpid(), SIGKILL);
    }
    return real(file, bytes, count);
}
#define ONE(name, type, word) \
    int name(type word) { \
        int (*real)(type) = dlsym(RTLD_NEXT, #name); \
        if (due()) { if (!stops()) { errno = EIO; return -1; } kill(getpid(), SIGKILL); } \
        return real(word); \
    }
ONE(fsync, int, file)
ONE(unlink, const char *, path)
'''


def make_shim(folder):
    compiler = shutil.which('cc') or shutil.which('gcc') or shutil.which('clang')
    if compiler is None:
        return None
    source, library = os.path.join(folder, 'shim.c'), os.path.join(folder, 'shim.so')
    with open(source, 'w') as file:
        file.write(SHIM)
    done = subprocess.run([compiler, '-shared', '-fPIC', '-O1', '-o', library, source, '-ldl'], check=False)
    return library if done.returncode == 0 else None


def state(folder, count):
    """'old', 'new' or 'torn'."""
    kinds = set()
    for number in range(count):
        try:
            with open(path_of(folder, number)) as file:
                text = file.read()
        except FileNotFoundError:
            text = None
        kinds.add('old' if text == OLD else 'new' if text == NEW else 'torn')
    if len(kinds) != 1 or os.path.exists(os.path.join(folder, '.refactor-gate')):
        return 'torn'
    return kinds.pop()


def run(words, shim=None, at=0, how=''):
    environment = dict(os.environ)
    if shim is not None:
        environment.update(LD_PRELOAD=shim, STOP_AT=str(at), STOP_BY=how)
    return subprocess.Popen(words, stdout=subprocess.DEVNULL, env=environment)


def main():
    parser = argparse.ArgumentParser()
    parser.add_argument('--trial', default=os.path.join(HERE, '..', 'crates', 'test_commit_run', 'out', 'test_commit_run'))
    parser.add_argument('--bin', default=os.path.join(HERE, '..', 'crates', 'refactor', 'out', 'refactor'))
    parser.add_argument('--files', type=int, default=200)
    parser.add_argument('--stops', type=int, default=200)
    parser.add_argument('--seed', type=int, default=1)
    given = parser.parse_args()
    chance = random.Random(given.seed)
    place = tempfile.mkdtemp()
    shim = make_shim(place)
    words = lambda folder: [given.trial, folder, str(given.files), OLD, NEW]
    folder = make_folder(given.files, OLD)
    start = time.perf_counter()
    if run(words(folder)).wait() != 0 or state(folder, given.files) != 'new':
        sys.exit('the commit without a stop did not make the new files')
    took = time.perf_counter() - start
    shutil.rmtree(folder)
    # calls that change the folder: two a file, and those for the journal, the gate and the folders
    most = 2 * given.files + 12
    seen = {how: {'old': 0, 'new': 0, 'torn': 0} for how in ('time', 'call', 'fault')}
    open_gates = 0
    for turn in range(given.stops):
        folder = make_folder(given.files, OLD)
        how = ('time', 'call', 'fault')[turn % 3] if shim is not None else 'time'
        if how == 'time':
            running = run(words(folder))
            time.sleep(chance.random() * took * 1.1)
            running.send_signal(signal.SIGKILL)
        else:
            running = run(words(folder), shim, chance.randint(1, most), 'kill' if how == 'call' else 'fail')
        running.wait()
        open_gates += os.path.exists(os.path.join(folder, '.refactor-gate'))
        run([given.bin, folder, 'check']).wait()
        kind = state(folder, given.files)
        seen[how][kind] += 1
        if kind == 'torn':
            print('torn:', folder, how)
        else:
            shutil.rmtree(folder)
    shutil.rmtree(place)
    print(f'a commit of {given.files} files takes {took * 1000:.0f} ms; {given.stops} stops, {open_gates} of them with an open gate')
    for how, kinds in seen.items():
        print(f"{how}: old {kinds['old']}, new {kinds['new']}, torn {kinds['torn']}")
    total = {kind: sum(kinds[kind] for kinds in seen.values()) for kind in ('old', 'new', 'torn')}
    print(f"old {total['old']}, new {total['new']}, torn {total['torn']}")
    sys.exit(1 if total['torn'] else 0)


main()
