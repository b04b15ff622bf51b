#!/usr/bin/env python3
"""Stops renames, moves, batches and undos of 200 files on a real folder at random moments, and looks at what recovery leaves.

    tools/stops_changes.py [--bin PATH] [--files N] [--stops N] [--seed N] [--seconds S]

Each turn takes a folder in which the next command changes every file, starts the command, stops the program by SIGKILL and runs `check`, which recovers. Every
other turn the stop comes after a random part of the time that the command takes, else after a random part of the time in which the gate stands. The files must
then all be old or all be new, and no gate may stand. The last line says how many were old, new and torn; the status is 0 where none was torn. Not part of the
gate.
"""
import argparse
import json
import os
import random
import shutil
import signal
import subprocess
import sys
import tempfile
import time

CLASS = 'package p;\npublic class K {\n  public static int f(int a) { return a + 1; }\n}\n'
USER = 'package c;\nimport p.K;\nclass C%d {\n  int m(int b) { return K.f(b) + K.f(%d); }\n}\n'
NAME, METHOD = CLASS.index('K {'), CLASS.index('f(')
BATCH = json.dumps([{'do': 'rename', 'file': 'p/K.java', 'at': METHOD, 'name': 'first'},
                    {'do': 'move', 'file': 'p/K.java', 'at': NAME, 'package': 'r'}]).encode()


def written(place, files):
    folder = tempfile.mkdtemp(dir=place)
    for name in ('p', 'c'):
        os.mkdir(os.path.join(folder, name))
    texts = {'p/K.java': CLASS, **{'c/C%d.java' % n: USER % (n, n) for n in range(files - 1)}}
    for path, text in texts.items():
        with open(os.path.join(folder, path), 'w') as file:
            file.write(text)
    return folder


def image(folder):
    """All files of the folder with their bytes, but the program's own."""
    all_files = {}
    for over, _, names in os.walk(folder):
        for name in names:
            if not name.startswith('.refactor-'):
                path = os.path.join(over, name)
                with open(path, 'rb') as file:
                    all_files[os.path.relpath(path, folder)] = file.read()
    return all_files


class Command:
    """A kind of change, with the files that it finds and leaves."""

    def __init__(self, binary, kind, place, files):
        self.binary, self.kind = binary, kind
        self.found = written(place, files)
        if kind == 'undo':
            subprocess.run(self.words(self.found, 'rename'), stdout=subprocess.DEVNULL, check=True)
        self.old = image(self.found)
        folder = self.folder()
        start = time.perf_counter()
        done = self.start(folder, stdout=subprocess.PIPE)
        self.line = done.communicate(BATCH if kind == 'batch' else None)[0].decode().strip()
        self.took = time.perf_counter() - start
        self.new = image(folder)
        shutil.rmtree(folder)
        if done.returncode != 0 or self.old == self.new:
            sys.exit('%s was not done: %s' % (kind, self.line))

    def words(self, folder, kind):
        ends = {'rename': ['rename', 'p/K.java', str(METHOD), 'first'], 'move': ['move', 'p/K.java', str(NAME), 'q'], 'batch': ['batch'], 'undo': ['undo']}
        return [self.binary, folder] + ends[kind]

    def folder(self):
        folder = tempfile.mkdtemp(dir=os.path.dirname(self.found))
        shutil.rmtree(folder)
        shutil.copytree(self.found, folder)
        return folder

    def start(self, folder, stdout=subprocess.DEVNULL):
        return subprocess.Popen(self.words(folder, self.kind), stdin=subprocess.PIPE, stdout=stdout)

    def stopped(self, chance, at_gate):
        """What recovery leaves after a stop, and whether the gate stood."""
        folder = self.folder()
        gate = os.path.join(folder, '.refactor-gate')
        running = self.start(folder)
        if self.kind == 'batch':
            running.stdin.write(BATCH)
        running.stdin.close()
        if at_gate:
            while running.poll() is None and not (os.path.exists(gate) and os.path.getsize(gate) > 0):
                pass
            time.sleep(chance.random() * self.took * 0.3)
        else:
            time.sleep(chance.random() * self.took * 1.1)
        running.send_signal(signal.SIGKILL)
        running.wait()
        stood = os.path.exists(gate) and os.path.getsize(gate) > 0
        subprocess.run([self.binary, folder, 'check'], stdout=subprocess.DEVNULL, check=False)
        left = image(folder)
        kind = 'old' if left == self.old else 'new' if left == self.new else 'torn'
        if os.path.exists(gate) and os.path.getsize(gate) > 0:
            kind = 'torn'
        if kind != 'torn':
            shutil.rmtree(folder)
        return kind, stood


def main():
    here = os.path.dirname(os.path.abspath(__file__))
    parser = argparse.ArgumentParser()
    parser.add_argument('--bin', default=os.path.join(here, '..', 'crates', 'refactor', 'out', 'refactor'))
    parser.add_argument('--files', type=int, default=200)
    parser.add_argument('--stops', type=int, default=200)
    parser.add_argument('--seed', type=int, default=1)
    parser.add_argument('--seconds', type=float, default=1e9)
    given = parser.parse_args()
    chance = random.Random(given.seed)
    place = tempfile.mkdtemp()
    commands = [Command(given.bin, kind, place, given.files) for kind in ('rename', 'move', 'batch', 'undo')]
    for command in commands:
        changed = sum(1 for path in set(command.old) | set(command.new) if command.old.get(path) != command.new.get(path))
        print('%s takes %.0f ms and changes %d files: %s' % (command.kind, command.took * 1000, changed, command.line), flush=True)
    seen = {command.kind: {'old': 0, 'new': 0, 'torn': 0, 'gate': 0} for command in commands}
    end, turns = time.time() + given.seconds, 0
    while turns < given.stops and time.time() < end:
        command = commands[turns % 4]
        kind, stood = command.stopped(chance, turns // 4 % 2 == 0)
        seen[command.kind][kind] += 1
        seen[command.kind]['gate'] += stood
        turns += 1
    for kind, count in seen.items():
        print('%s: old %d, new %d, torn %d; the gate stood at %d stops' % (kind, count['old'], count['new'], count['torn'], count['gate']))
    total = {what: sum(count[what] for count in seen.values()) for what in ('old', 'new', 'torn')}
    print('%d stops: old %d, new %d, torn %d' % (turns, total['old'], total['new'], total['torn']))
    if total['torn'] == 0:
        shutil.rmtree(place)
    sys.exit(1 if total['torn'] else 0)


main()
